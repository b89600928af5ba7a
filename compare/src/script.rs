//! Random scripts of calls.

mod blocks;

use crate::model::image::{Image, POWER};
use crate::model::replay::ENTRY_WORDS;
use crate::random::{Random, WILD};
use crate::successions::{bad_power_word, bad_word, plain_module, random_module, MOST_CALLS};

/// The codes of the calls (COMPARE.md).
pub mod code {
    pub const CYCLE: u32 = 0;
    pub const PLACE_PARAMETER: u32 = 1;
    pub const PLACE_RESET: u32 = 2;
    pub const COLLECT: u32 = 3;
    pub const WRITE_OUTPUTS: u32 = 4;
    pub const READ_INPUTS: u32 = 5;
    pub const READ_LISTS: u32 = 6;
    pub const SET_MODE: u32 = 7;
    pub const SET_OFFLINE: u32 = 8;
    pub const PROJECT: u32 = 9;
    pub const UNPROJECT: u32 = 10;
    pub const TAKE_OVER: u32 = 11;
    pub const PROJECTION: u32 = 12;
}

/// Makes a script of blocks, each a small scene that leads somewhere. It
/// keeps an image of its own with what it plugged in, not with what the
/// master made of the modules.
pub struct Script<'r> {
    random: &'r mut Random,
    image: Image,
    words: Vec<u32>,
    /// The alteration that goes with the next entry.
    alteration: Option<(u32, u32)>,
    /// Where the scenes of this script mostly play.
    favourites: [u32; 3],
}

impl Script<'_> {
    pub fn random(random: &mut Random, image: Image) -> Vec<u32> {
        let calls = if random.percent(80) {
            random.between(200, MOST_CALLS as u32)
        } else {
            random.between(0, MOST_CALLS as u32)
        };
        let favourites = [random.below(32), random.below(32), random.between(1, 31)];
        let mut script = Script {
            random,
            image,
            words: Vec::new(),
            alteration: None,
            favourites,
        };
        script.start();
        while script.words.len() < calls as usize * ENTRY_WORDS {
            script.block();
        }
        script.words.truncate(calls as usize * ENTRY_WORDS);
        script.append_partial_entry();
        script.words
    }

    /// A part of an entry at the end, which nobody looks at.
    fn append_partial_entry(&mut self) {
        if self.random.percent(20) {
            let part = self.random.below(ENTRY_WORDS as u32);
            for _ in 0..part {
                let word = self.random.below(2);
                self.words.push(word);
            }
        }
    }

    fn entry(&mut self, code: u32, arguments: [u32; 4]) {
        let (place, word) = self.alteration.take().unwrap_or((33, 0));
        self.words.push(code);
        self.words.extend(arguments);
        self.words.extend([place, word, 0]);
    }

    fn simple(&mut self, code: u32, a: u32) {
        self.entry(code, [a, 0, 0, 0]);
    }

    // Numbers.

    /// A good number, or one out of range.
    fn number(&mut self, good: u32) -> u32 {
        if self.random.percent(94) {
            return good;
        }
        match self.random.below(3) {
            0 => good + 32 * self.random.between(1, 8),
            1 => self.random.word(),
            _ => self.random.one_of(&WILD),
        }
    }

    fn nibble(&mut self) -> u32 {
        let good = self.random.below(16);
        self.number(good)
    }

    /// An address, mostly one where a module stands.
    fn address(&mut self) -> u32 {
        let good = if self.random.percent(85) {
            self.occupied()
        } else {
            self.random.below(32)
        };
        self.number(good)
    }

    fn occupied(&mut self) -> u32 {
        let from = self.random.between(1, 31);
        let mut round = (0..31).map(|step| (from + step - 1) % 31 + 1);
        let first = round.find(|address| self.image[*address as usize] != 0);
        first.unwrap_or(from)
    }

    fn favourite(&mut self) -> u32 {
        let index = self.random.below(3) as usize;
        self.favourites[index]
    }

    // Alterations of the line.

    fn alter(&mut self, place: u32, word: u32) {
        self.alteration = Some((place, word));
        self.image[place as usize] = word;
    }

    fn plug(&mut self, address: u32) {
        let word = if self.random.percent(60) {
            plain_module(self.random)
        } else {
            random_module(self.random)
        };
        self.alter(address, word);
    }

    /// Makes the next requests to a module disturbed; it stays enabled.
    fn disturb_at(&mut self, address: u32, most: u32) {
        let module = self.image[address as usize];
        if module != 0 {
            let count = self.random.between(0, most);
            self.alter(address, module & !0x70 | 1 << 7 | count << 4);
        }
    }

    /// New inputs for a module that stays enabled.
    fn change_inputs(&mut self, address: u32) {
        let module = self.image[address as usize];
        if module != 0 {
            let inputs = self.random.below(16);
            self.alter(address, module & !0x000F_0000 | 1 << 7 | inputs << 16);
        }
    }

    fn any_alteration(&mut self, address: u32) {
        match self.random.below(8) {
            0..=1 => self.plug(address),
            2 => self.alter(address, 0),
            3..=4 => self.disturb_at(address, 7),
            5..=6 => self.change_inputs(address),
            _ => self.alter_badly(),
        }
    }

    /// A bad word alters no image. One that is good by chance is lost on
    /// this mirror, which does not matter.
    fn alter_badly(&mut self) {
        let (place, word) = if self.random.percent(30) {
            (POWER as u32, bad_power_word(self.random))
        } else {
            (self.random.below(34), bad_word(self.random))
        };
        let place = self.number(place);
        self.alteration = Some((place, word));
    }
}
