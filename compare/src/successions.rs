//! Random successions: what one replay is given, and the images in it.

use crate::model::image::{Image, POWER, POWER_DOWN, POWER_UP};
use crate::model::replay::{Setting, CALL_WORDS, ENTRY_WORDS};
use crate::random::{Random, WILD};
use crate::script::Script;

/// What one call of `asi_replay` is given.
pub struct Succession {
    pub setting: Setting,
    pub words: Vec<u32>,
    pub script: Vec<u32>,
    pub log_words: usize,
}

pub const MOST_CALLS: usize = 300;

impl Succession {
    /// The succession of a seed with that index. Each can be made alone.
    pub fn random(seed: u64, index: u64) -> Succession {
        let mut random = Random::new(seed, index);
        let setting = Setting {
            line: random_line(&mut random),
            order_room: random_room(&mut random),
            answer_room: random_room(&mut random),
        };
        let image = random_image(&mut random);
        let script = Script::random(&mut random, image);
        let entries = script.len() / ENTRY_WORDS;
        Succession {
            setting,
            words: maybe_damaged(&mut random, image),
            script,
            log_words: random_log_words(&mut random, entries),
        }
    }
}

fn random_line(random: &mut Random) -> u32 {
    match random.below(10) {
        0..=2 => 0,
        3..=4 => 1,
        5 => 2,
        6 => 3,
        7..=8 => 4,
        _ => random.one_of(&WILD),
    }
}

fn random_room(random: &mut Random) -> u32 {
    match random.below(10) {
        0..=2 => random.between(0, 2),
        3..=8 => random.between(3, 8),
        _ => random.one_of(&[9, 10, 255, 0x8000_0000, u32::MAX]),
    }
}

/// Mostly too long a log, so that what is left must stay untouched.
fn random_log_words(random: &mut Random, entries: usize) -> usize {
    let extra = random.below(2 * CALL_WORDS as u32) as usize;
    if random.percent(88) {
        entries * CALL_WORDS + extra
    } else {
        let places = random.below(entries as u32 + 1) as usize;
        places * CALL_WORDS + extra % CALL_WORDS
    }
}

fn random_image(random: &mut Random) -> Image {
    let mut image = [0; 33];
    let occupied = random.one_of(&[2, 10, 20, 35, 60, 80, 95, 100]);
    let plain = random.percent(50);
    for word in &mut image[1..POWER] {
        if random.percent(occupied) {
            *word = if plain {
                plain_module(random)
            } else {
                random_module(random)
            };
        }
    }
    if random.percent(25) {
        image[0] = random_module(random);
    }
    image[POWER] = if random.percent(90) {
        POWER_UP
    } else {
        POWER_DOWN
    };
    image
}

/// Sometimes the image is none: a bad word, or another length.
fn maybe_damaged(random: &mut Random, image: Image) -> Vec<u32> {
    let mut words = image.to_vec();
    if random.percent(96) {
        return words;
    }
    match random.below(4) {
        0 => words.truncate(random.below(33) as usize),
        1 => words.resize(random.between(34, 40) as usize, 0),
        2 => words[POWER] = bad_power_word(random),
        _ => {
            let place = random.below(32) as usize;
            words[place] = bad_word(random);
        }
    }
    words
}

/// Words that no station may have. Some are good by chance.
pub fn bad_word(random: &mut Random) -> u32 {
    let module = random_module(random);
    match random.below(8) {
        0 => module & 0x3FFF_FFFF,
        1 => module | 0x8000_0000,
        2 => module & 0x3FFF_FFFF | 0x8000_0000,
        3 => module | 0x1000_0000,
        4 => module | 0x2000_0000,
        5 => 1 << random.below(30),
        6 => random.one_of(&[POWER_UP, POWER_DOWN, 0xC000_0002, u32::MAX]),
        _ => random.word(),
    }
}

/// Words that power may not have.
pub fn bad_power_word(random: &mut Random) -> u32 {
    match random.below(3) {
        // One bit from power up, but not power down.
        0 => POWER_UP ^ 1 << random.between(1, 31),
        1 => random.below(4),
        _ => random.one_of(&[0x4709_FF00, 0x8000_0001, 0xC000_0003, u32::MAX]),
    }
}

/// A module that can be activated and is not disturbed.
pub fn plain_module(random: &mut Random) -> u32 {
    let module = 1 << 30 | random.word() & 0x00FF_FF8F;
    module | random.below(15) << 24
}

/// Any module; few kinds of codes, so that codes are found again.
pub fn random_module(random: &mut Random) -> u32 {
    let io_code = match random.below(6) {
        0 => 15,
        1 => random.below(16),
        _ => random.between(6, 8),
    };
    let id_code = match random.below(4) {
        0 => random.below(16),
        _ => random.below(2),
    };
    let disturbances = if random.percent(30) {
        random.below(8)
    } else {
        0
    };
    let rest = random.word() & 0x000F_FF8F;
    1 << 30 | io_code << 24 | id_code << 20 | disturbances << 4 | rest
}

#[cfg(test)]
mod tests {
    use super::*;

    #[test]
    fn the_same_seed_gives_the_same_succession() {
        let once = Succession::random(5, 17);
        let again = Succession::random(5, 17);
        assert_eq!(once.words, again.words);
        assert_eq!(once.script, again.script);
        let other = Succession::random(5, 18);
        assert!(once.script != other.script || once.words != other.words);
    }

    #[test]
    fn scripts_are_not_too_long() {
        for index in 0..200 {
            let succession = Succession::random(1, index);
            assert!(succession.script.len() < (MOST_CALLS + 1) * ENTRY_WORDS);
        }
    }
}
