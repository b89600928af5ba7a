//! Images: what a line means, in 33 words (IMAGES.md).

use super::numbers::{Nibble, Refusal};
use super::station::{Module, Station};

pub const STATIONS: usize = 32;
pub const WORDS: usize = STATIONS + 1;

/// The words of the stations 0 to 31, then that of power.
pub type Image = [u32; WORDS];

pub const POWER: usize = STATIONS;
pub const POWER_UP: u32 = 0xC000_0001;
pub const POWER_DOWN: u32 = 0xC000_0000;

/// The words as an image, if they are a good one.
pub fn check(words: &[u32]) -> Result<&Image, Refusal> {
    let image: &Image = words.try_into().map_err(|_| Refusal::BadImage)?;
    let good = (0..WORDS).all(|place| is_good_at(place, image[place]));
    good.then_some(image).ok_or(Refusal::BadImage)
}

/// Whether a word may stand at that place of an image.
pub fn is_good_at(place: usize, word: u32) -> bool {
    if place == POWER {
        power_of(word).is_some()
    } else {
        station_of(word).is_some()
    }
}

pub fn power_of(word: u32) -> Option<bool> {
    match word {
        POWER_UP => Some(true),
        POWER_DOWN => Some(false),
        _ => None,
    }
}

pub fn power_word(up: bool) -> u32 {
    if up {
        POWER_UP
    } else {
        POWER_DOWN
    }
}

/// The station that a word says, none where the word is bad.
pub fn station_of(word: u32) -> Option<Station> {
    match word >> 28 {
        // Kind 1, and bits 29 and 28 are 0.
        0b0100 => Some(Some(module_of(word))),
        0 if word == 0 => Some(None),
        _ => None,
    }
}

fn module_of(word: u32) -> Module {
    let nibble_from = |bit: u32| (word >> bit & 15) as Nibble;
    Module {
        io_code: nibble_from(24),
        id_code: nibble_from(20),
        inputs: nibble_from(16),
        outputs: nibble_from(12),
        parameter: nibble_from(8),
        enabled: word >> 7 & 1 == 1,
        disturbances: (word >> 4 & 7) as u8,
        direction: nibble_from(0),
    }
}

pub fn word_of(station: Station) -> u32 {
    let Some(module) = station else { return 0 };
    1 << 30
        | u32::from(module.io_code) << 24
        | u32::from(module.id_code) << 20
        | u32::from(module.inputs) << 16
        | u32::from(module.outputs) << 12
        | u32::from(module.parameter) << 8
        | u32::from(module.enabled) << 7
        | u32::from(module.disturbances) << 4
        | u32::from(module.direction)
}

#[cfg(test)]
mod tests {
    use super::*;

    #[test]
    fn words_go_round() {
        for word in [0x43A0_FF0C, 0x4709_F580, 0x4FFF_FF00, 0x4150_FF28, 0] {
            assert_eq!(station_of(word).map(word_of), Some(word));
        }
    }

    #[test]
    fn bad_words() {
        for word in [1, 0x0700_0000, 0x8709_FF00, 0xC709_FF00] {
            assert!(!is_good_at(3, word));
        }
        // Bits 28 and 29 of a module's word.
        assert!(!is_good_at(3, 0x5709_FF00));
        assert!(!is_good_at(3, 0x6709_FF00));
        for word in [0, 1, 0xC000_0002, 0x4709_FF00] {
            assert!(!is_good_at(POWER, word));
        }
        assert!(!is_good_at(3, POWER_UP));
    }

    #[test]
    fn only_33_good_words_are_an_image() {
        let mut words = vec![0; 33];
        assert_eq!(check(&words), Err(Refusal::BadImage));
        words[32] = POWER_DOWN;
        assert!(check(&words).is_ok());
        assert_eq!(check(&words[..32]), Err(Refusal::BadImage));
        words.push(0);
        assert_eq!(check(&words), Err(Refusal::BadImage));
        assert_eq!(check(&[]), Err(Refusal::BadImage));
    }
}
