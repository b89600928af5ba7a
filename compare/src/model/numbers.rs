//! Numbers within their bounds, and the numbers by which a call is refused
//! (REFUSALS.md).

use super::telegrams::Cause;

pub type Nibble = u8;
pub type Address = u8;

/// Why a call was refused.
#[derive(Clone, Copy, Debug, PartialEq, Eq)]
pub enum Refusal {
    BadAddress,
    BadValue,
    WrongPhase,
    NotActive,
    QueueFull,
    AddressZeroDetected,
    NoAnswer,
    BadImage,
    BadTelegram(Cause),
}

impl Refusal {
    pub fn number(self) -> u32 {
        match self {
            Refusal::BadAddress => 0x8381,
            Refusal::BadValue => 0x8310,
            Refusal::WrongPhase => 0x8384,
            Refusal::NotActive => 0x8382,
            Refusal::QueueFull => 0x8311,
            Refusal::AddressZeroDetected => 0x8385,
            Refusal::NoAnswer => 0x8312,
            Refusal::BadImage => 0x8313,
            Refusal::BadTelegram(_) => 0x8314,
        }
    }
}

/// A value 0 to 15.
pub fn nibble(number: u32) -> Result<Nibble, Refusal> {
    up_to(15, number).ok_or(Refusal::BadValue)
}

/// An address 0 to 31.
pub fn address(number: u32) -> Result<Address, Refusal> {
    up_to(31, number).ok_or(Refusal::BadAddress)
}

/// A module's address, 1 to 31.
pub fn module_address(number: u32) -> Result<Address, Refusal> {
    match address(number) {
        Ok(0) => Err(Refusal::BadAddress),
        other => other,
    }
}

fn up_to(greatest: u8, number: u32) -> Option<u8> {
    u8::try_from(number).ok().filter(|n| *n <= greatest)
}

#[cfg(test)]
mod tests {
    use super::*;

    #[test]
    fn bounds() {
        assert_eq!(nibble(15), Ok(15));
        assert_eq!(nibble(16), Err(Refusal::BadValue));
        assert_eq!(nibble(256), Err(Refusal::BadValue));
        assert_eq!(address(0), Ok(0));
        assert_eq!(address(31), Ok(31));
        assert_eq!(address(32), Err(Refusal::BadAddress));
        assert_eq!(address(u32::MAX), Err(Refusal::BadAddress));
        assert_eq!(module_address(0), Err(Refusal::BadAddress));
        assert_eq!(module_address(1), Ok(1));
    }
}
