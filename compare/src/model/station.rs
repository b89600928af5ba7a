//! A module and how it answers (LINES.md).

use super::numbers::Nibble;
use super::telegrams::Request;

#[derive(Clone, Copy, Debug, PartialEq, Eq)]
pub struct Module {
    pub io_code: Nibble,
    pub id_code: Nibble,
    pub inputs: Nibble,
    pub outputs: Nibble,
    pub parameter: Nibble,
    /// A bit of one marks an output port.
    pub direction: Nibble,
    /// The mark that the module is enabled for data exchange.
    pub enabled: bool,
    /// How many of the next requests are disturbed, 0 to 7.
    pub disturbances: u8,
}

/// A station is vacant or holds a module.
pub type Station = Option<Module>;

#[derive(Clone, Copy, Debug, PartialEq, Eq)]
pub enum Reply {
    Nibble(Nibble),
    Silence,
    Disturbed,
}

/// What a module replies to Reset.
const RESET_REPLY: Nibble = 6;

impl Module {
    /// Rules 2 to 7: what a module does with a request when power is up.
    pub fn hear(&mut self, request: Request) -> Reply {
        if self.disturbances > 0 {
            self.disturbances -= 1;
            return Reply::Disturbed;
        }
        match request {
            Request::DataExchange(_, nibble) => self.exchange(nibble),
            Request::WriteParameter(_, nibble) => {
                self.parameter = nibble;
                self.enabled = true;
                Reply::Nibble(nibble)
            }
            Request::ReadIo(_) => Reply::Nibble(self.io_code),
            Request::ReadId(_) => Reply::Nibble(self.id_code),
            Request::Reset(_) => self.reset(),
        }
    }

    fn exchange(&mut self, nibble: Nibble) -> Reply {
        if !self.enabled || self.io_code == 15 {
            return Reply::Silence;
        }
        self.outputs = nibble;
        // An output port reads back what was sent.
        Reply::Nibble(nibble & self.direction | self.inputs & !self.direction)
    }

    fn reset(&mut self) -> Reply {
        self.outputs = 15;
        self.parameter = 15;
        self.enabled = false;
        Reply::Nibble(RESET_REPLY)
    }
}

#[cfg(test)]
mod tests {
    use super::super::image::{station_of, word_of};
    use super::*;

    fn after(word: u32, request: Request) -> (u32, Reply) {
        let mut module = station_of(word).unwrap().unwrap();
        let reply = module.hear(request);
        (word_of(Some(module)), reply)
    }

    #[test]
    fn worked_examples() {
        assert_eq!(
            after(0x4709_FF00, Request::WriteParameter(3, 5)),
            (0x4709_F580, Reply::Nibble(5))
        );
        assert_eq!(
            after(0x4709_F580, Request::DataExchange(3, 6)),
            (0x4709_6580, Reply::Nibble(9))
        );
        assert_eq!(
            after(0x4709_F583, Request::DataExchange(3, 6)),
            (0x4709_6583, Reply::Nibble(10))
        );
    }

    #[test]
    fn silence_and_disturbance() {
        let exchange = Request::DataExchange(3, 0);
        assert_eq!(after(0x4709_FF00, exchange), (0x4709_FF00, Reply::Silence));
        assert_eq!(after(0x4F09_FF80, exchange), (0x4F09_FF80, Reply::Silence));
        assert_eq!(
            after(0x4F09_FF70, exchange),
            (0x4F09_FF60, Reply::Disturbed)
        );
    }

    #[test]
    fn reset_and_codes() {
        assert_eq!(
            after(0x47A9_0583, Request::Reset(3)),
            (0x47A9_FF03, Reply::Nibble(6))
        );
        assert_eq!(
            after(0x47A9_0583, Request::ReadIo(3)),
            (0x47A9_0583, Reply::Nibble(7))
        );
        assert_eq!(
            after(0x47A9_0583, Request::ReadId(3)),
            (0x47A9_0583, Reply::Nibble(10))
        );
    }
}
