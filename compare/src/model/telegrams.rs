//! Requests and replies and their words (TELEGRAMS.md).

use super::numbers::{self, Address, Nibble, Refusal};

#[derive(Clone, Copy, Debug, PartialEq, Eq)]
pub enum Request {
    DataExchange(Address, Nibble),
    WriteParameter(Address, Nibble),
    ReadIo(Address),
    ReadId(Address),
    Reset(Address),
}

/// The first thing that is wrong with a word that is no telegram.
#[derive(Clone, Copy, Debug, PartialEq, Eq)]
pub enum Cause {
    TooWide,
    StartBit,
    EndBit,
    Parity,
    NoRequest,
}

impl Cause {
    pub fn number(self) -> u32 {
        match self {
            Cause::TooWide => 1,
            Cause::StartBit => 2,
            Cause::EndBit => 3,
            Cause::Parity => 4,
            Cause::NoRequest => 5,
        }
    }
}

const REQUEST_BITS: u32 = 14;
const REPLY_BITS: u32 = 7;

// The information bits I4 to I0 of the requests with control bit 1.
const READ_IO: u32 = 16;
const READ_ID: u32 = 17;
const RESET: u32 = 28;

/// I4 of a request with control bit 0: the nibble is a parameter.
const PARAMETER: u32 = 16;

impl Request {
    /// Makes a request by the numbers of COMPARE.md.
    pub fn from_numbers(kind: u32, address: u32, value: u32) -> Result<Request, Refusal> {
        Ok(match kind {
            0 => Request::DataExchange(numbers::module_address(address)?, numbers::nibble(value)?),
            1 => {
                Request::WriteParameter(numbers::module_address(address)?, numbers::nibble(value)?)
            }
            2 => Request::ReadIo(numbers::address(address)?),
            3 => Request::ReadId(numbers::address(address)?),
            _ => Request::Reset(numbers::address(address)?),
        })
    }

    /// The number of a request's kind (COMPARE.md).
    pub fn kind(self) -> u32 {
        match self {
            Request::DataExchange(..) => 0,
            Request::WriteParameter(..) => 1,
            Request::ReadIo(_) => 2,
            Request::ReadId(_) => 3,
            Request::Reset(_) => 4,
        }
    }

    pub fn address(self) -> Address {
        match self {
            Request::DataExchange(address, _)
            | Request::WriteParameter(address, _)
            | Request::ReadIo(address)
            | Request::ReadId(address)
            | Request::Reset(address) => address,
        }
    }

    /// The nibble that is sent, 0 where the request has none.
    pub fn value(self) -> Nibble {
        match self {
            Request::DataExchange(_, nibble) | Request::WriteParameter(_, nibble) => nibble,
            Request::ReadIo(_) | Request::ReadId(_) | Request::Reset(_) => 0,
        }
    }

    pub fn encode(self) -> u32 {
        let (control, information) = self.control_and_information();
        framed(control << 10 | u32::from(self.address()) << 5 | information)
    }

    fn control_and_information(self) -> (u32, u32) {
        match self {
            Request::DataExchange(_, nibble) => (0, u32::from(nibble)),
            Request::WriteParameter(_, nibble) => (0, PARAMETER | u32::from(nibble)),
            Request::ReadIo(_) => (1, READ_IO),
            Request::ReadId(_) => (1, READ_ID),
            Request::Reset(_) => (1, RESET),
        }
    }

    pub fn decode(word: u32) -> Result<Request, Cause> {
        let payload = unframed(word, REQUEST_BITS)?;
        let control = payload >> 10;
        let address = (payload >> 5 & 31) as Address;
        let information = payload & 31;
        let nibble = (information & 15) as Nibble;
        match (control, information) {
            (0, _) if address == 0 => Err(Cause::NoRequest),
            (0, 0..=15) => Ok(Request::DataExchange(address, nibble)),
            (0, _) => Ok(Request::WriteParameter(address, nibble)),
            (_, READ_IO) => Ok(Request::ReadIo(address)),
            (_, READ_ID) => Ok(Request::ReadId(address)),
            (_, RESET) => Ok(Request::Reset(address)),
            _ => Err(Cause::NoRequest),
        }
    }
}

pub fn encode_reply(nibble: Nibble) -> u32 {
    framed(u32::from(nibble))
}

pub fn decode_reply(word: u32) -> Result<Nibble, Cause> {
    unframed(word, REPLY_BITS).map(|payload| payload as Nibble)
}

/// Puts the parity bit and the end bit behind a payload. The start bit, 0,
/// is there already.
fn framed(payload: u32) -> u32 {
    let parity = payload.count_ones() & 1;
    payload << 2 | parity << 1 | 1
}

/// The bits between start bit and parity bit, if the frame is right.
fn unframed(word: u32, bits: u32) -> Result<u32, Cause> {
    if word >> bits != 0 {
        Err(Cause::TooWide)
    } else if word >> (bits - 1) != 0 {
        Err(Cause::StartBit)
    } else if word & 1 == 0 {
        Err(Cause::EndBit)
    } else if !(word >> 1).count_ones().is_multiple_of(2) {
        Err(Cause::Parity)
    } else {
        Ok(word >> 2)
    }
}

#[cfg(test)]
mod tests {
    use super::*;

    #[test]
    fn worked_examples() {
        assert_eq!(Request::DataExchange(3, 15).encode(), 445);
        assert_eq!(Request::ReadIo(0).encode(), 4161);
        assert_eq!(Request::ReadId(3).encode(), 4551);
        assert_eq!(Request::WriteParameter(31, 5).encode(), 4053);
        assert_eq!(encode_reply(7), 31);
        assert_eq!(encode_reply(0), 1);
        assert_eq!(Request::decode(441), Err(Cause::Parity));
        assert_eq!(Request::decode(444), Err(Cause::EndBit));
        assert_eq!(Request::decode(4171), Err(Cause::NoRequest));
    }

    #[test]
    fn how_many_words_have_each_cause() {
        let mut requests = 0;
        let mut causes = [0; 6];
        for word in 0..1 << 14 {
            match Request::decode(word) {
                Ok(request) => {
                    requests += 1;
                    assert_eq!(request.encode(), word);
                }
                Err(cause) => causes[cause.number() as usize] += 1,
            }
        }
        assert_eq!(requests, 1088);
        assert_eq!(causes, [0, 0, 8192, 4096, 2048, 960]);
        assert_eq!(Request::decode(1 << 14), Err(Cause::TooWide));
        assert_eq!(Request::decode(u32::MAX), Err(Cause::TooWide));
    }

    #[test]
    fn replies_go_round() {
        for nibble in 0..16 {
            assert_eq!(decode_reply(encode_reply(nibble)), Ok(nibble));
        }
        let good = (0..256).filter(|word| decode_reply(*word).is_ok());
        assert_eq!(good.count(), 16);
        assert_eq!(decode_reply(128), Err(Cause::TooWide));
        assert_eq!(decode_reply(64), Err(Cause::StartBit));
    }

    #[test]
    fn a_bad_address_is_found_before_a_bad_value() {
        let made = Request::from_numbers(0, 32, 16);
        assert_eq!(made, Err(Refusal::BadAddress));
        let made = Request::from_numbers(1, 31, 16);
        assert_eq!(made, Err(Refusal::BadValue));
        assert_eq!(Request::from_numbers(9, 0, 99), Ok(Request::Reset(0)));
    }
}
