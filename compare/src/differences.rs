//! Compares the two implementations and says the first difference.

use std::fmt;

use crate::linked;
use crate::model;
use crate::model::image::{POWER, POWER_DOWN, POWER_UP, WORDS};
use crate::model::replay::{Setting, CALL_WORDS, ENTRY_WORDS, MOST_EDITS};
use crate::random::{Random, WILD};
use crate::script::code;
use crate::successions::Succession;

/// Where the two differ, and how.
pub struct Difference {
    text: String,
}

impl fmt::Display for Difference {
    fn fmt(&self, formatter: &mut fmt::Formatter) -> fmt::Result {
        formatter.write_str(&self.text)
    }
}

/// What a log holds where nothing was written.
pub const UNTOUCHED: u32 = 0xDEAD_BEEF;

// Telegrams.

const RANDOM_WORDS: u32 = 20_000;

/// Compares the four telegram functions; gives how many calls were compared.
pub fn telegrams(seed: u64) -> Result<u64, Difference> {
    Ok(decoders(seed)? + encoders()?)
}

fn decoders(seed: u64) -> Result<u64, Difference> {
    let mut random = Random::new(seed, u64::MAX);
    let mut compared = 0;
    let random_words = (0..RANDOM_WORDS).map(|_| {
        // Shorter words too: a random one is nearly always too wide.
        let width = random.below(32);
        random.word() >> width
    });
    for word in (0..=0xFFFF).chain(WILD).chain(random_words) {
        same(
            || format!("asi_decode_request({word})"),
            linked::decode_request(word),
            model::decode_request(word),
        )?;
        same(
            || format!("asi_decode_reply({word})"),
            linked::decode_reply(word),
            model::decode_reply(word),
        )?;
        compared += 2;
    }
    Ok(compared)
}

fn encoders() -> Result<u64, Difference> {
    let mut compared = 0;
    for kind in (0..=6).chain(WILD) {
        for address in (0..=40).chain(WILD) {
            for value in (0..=20).chain(WILD) {
                same(
                    || format!("asi_encode_request({kind}, {address}, {value})"),
                    linked::encode_request(kind, address, value),
                    model::encode_request(kind, address, value),
                )?;
                compared += 1;
            }
        }
    }
    for value in (0..=40).chain(WILD) {
        same(
            || format!("asi_encode_reply({value})"),
            linked::encode_reply(value),
            model::encode_reply(value),
        )?;
        compared += 1;
    }
    Ok(compared)
}

fn same(call: impl Fn() -> String, linked: u32, own: u32) -> Result<(), Difference> {
    if linked == own {
        return Ok(());
    }
    Err(Difference {
        text: format!("{}: {}", call(), both(linked, own)),
    })
}

fn both(linked: u32, own: u32) -> String {
    format!(
        "the library gives {linked} ({linked:08X}), the second implementation {own} ({own:08X})"
    )
}

// Runs of cycles.

const IMAGES: u64 = 200;

/// Compares `asi_cycles` on the images of the first successions and on
/// doubtful ones.
pub fn cycles(seed: u64) -> Result<u64, Difference> {
    let mut compared = 0;
    for words in doubtful_images() {
        same_cycles(&words, 4)?;
        compared += 1;
    }
    for index in 0..IMAGES {
        let words = Succession::random(seed, index).words;
        for cycles in [0, 1, 2, 3, 4, 5, 40, 200] {
            same_cycles(&words, cycles)?;
            compared += 1;
        }
    }
    Ok(compared)
}

const MODULE: u32 = 0x4709_FF00;

/// Images of other lengths, and such with a word that is one bit from a good
/// one.
fn doubtful_images() -> Vec<Vec<u32>> {
    let mut good = vec![0; WORDS];
    good[1] = MODULE;
    good[POWER] = POWER_UP;
    let mut images: Vec<Vec<u32>> = (0..=40).map(|length| resized(&good, length)).collect();
    for place in [0, 1, 17, POWER - 1, POWER] {
        for word in [0, MODULE, POWER_UP, POWER_DOWN] {
            images.extend((0..32).map(|bit| with_word(&good, place, word ^ 1 << bit)));
        }
    }
    images
}

fn resized(words: &[u32], length: usize) -> Vec<u32> {
    let mut other = words.to_vec();
    other.resize(length, 0);
    other
}

fn with_word(words: &[u32], place: usize, word: u32) -> Vec<u32> {
    let mut other = words.to_vec();
    other[place] = word;
    other
}

fn same_cycles(words: &[u32], cycles: u32) -> Result<(), Difference> {
    let mut lent = words.to_vec();
    let requests = linked::cycles(&mut lent, cycles);
    let call = || format!("asi_cycles({}, {cycles})", words_as_text(words));
    same(call, requests, model::cycles(words, cycles))?;
    if lent != words {
        let text = format!("{}: the library altered the words", call());
        return Err(Difference { text });
    }
    Ok(())
}

// Successions.

/// What one implementation did with a succession.
pub struct Replayed {
    pub calls: usize,
    pub words: Vec<u32>,
    pub log: Vec<u32>,
}

type Replay = fn(Setting, &mut [u32], &[u32], &mut [u32]) -> usize;

pub fn replayed(replay: Replay, succession: &Succession) -> Replayed {
    let mut words = succession.words.clone();
    let mut log = vec![UNTOUCHED; succession.log_words];
    let calls = replay(succession.setting, &mut words, &succession.script, &mut log);
    Replayed { calls, words, log }
}

/// Compares the succession of a seed with that index; gives how many calls
/// were compared.
pub fn succession(seed: u64, index: u64) -> Result<u64, Difference> {
    let succession = Succession::random(seed, index);
    let linked = replayed(linked::replay, &succession);
    let own = replayed(model::replay, &succession);
    match first_difference(&succession, &linked, &own) {
        None => Ok(own.calls as u64),
        Some(what) => Err(Difference {
            text: format!(
                "succession {index} of seed {seed} differs\n{}{what}",
                parameters(&succession)
            ),
        }),
    }
}

fn first_difference(succession: &Succession, linked: &Replayed, own: &Replayed) -> Option<String> {
    let pairs = linked.log.iter().zip(&own.log);
    let differs = pairs.clone().position(|(one, other)| one != other);
    if let Some(place) = differs {
        let call = place / CALL_WORDS;
        return Some(format!(
            "calls made: the library {}, the second implementation {}\n{}{}: {}\n",
            linked.calls,
            own.calls,
            entry_of_call(&succession.script, call),
            meaning(place % CALL_WORDS),
            both(linked.log[place], own.log[place])
        ));
    }
    if linked.calls != own.calls {
        let values = both(linked.calls as u32, own.calls as u32);
        return Some(format!("number of calls made: {values}\n"));
    }
    let mut words = linked.words.iter().zip(&own.words);
    let place = words.position(|(one, other)| one != other)?;
    Some(format!(
        "word {place} of the image after the last call: {}\n",
        both(linked.words[place], own.words[place])
    ))
}

fn parameters(succession: &Succession) -> String {
    format!(
        "line {}, order room {}, answer room {}, script of {} words, log of {} words\nimage {}\n",
        succession.setting.line,
        succession.setting.order_room,
        succession.setting.answer_room,
        succession.script.len(),
        succession.log_words,
        words_as_text(&succession.words)
    )
}

fn words_as_text(words: &[u32]) -> String {
    let words: Vec<String> = words.iter().map(|word| format!("{word:08X}")).collect();
    format!("[{}]", words.join(" "))
}

/// The script's entry of a call, with the edits where it is a projection.
fn entry_of_call(script: &[u32], call: usize) -> String {
    let Some(entries) = calls_of(script).nth(call) else {
        return format!("call {call}: the script has no entry for it\n");
    };
    let mut text = format!("call {call}:\n");
    for (index, words) in entries {
        text += &format!("  entry {index}: {}\n", entry_as_text(words));
    }
    text
}

/// The entries of each call: one, and behind a projection its edits.
pub fn calls_of(script: &[u32]) -> impl Iterator<Item = Vec<(usize, &[u32])>> {
    let mut entries = script.chunks_exact(ENTRY_WORDS).enumerate().peekable();
    std::iter::from_fn(move || {
        let first = entries.next()?;
        let mut call = vec![first];
        if first.1[0] > code::TAKE_OVER {
            while call.len() <= MOST_EDITS {
                let edit = entries.next_if(|(_, words)| is_edit(words[0]));
                let Some(edit) = edit else { break };
                call.push(edit);
            }
        }
        Some(call)
    })
}

fn is_edit(number: u32) -> bool {
    (code::PROJECT..=code::TAKE_OVER).contains(&number)
}

fn entry_as_text(words: &[u32]) -> String {
    let [code, a, b, c, d, place, word] = [0, 1, 2, 3, 4, 5, 6].map(|index| words[index]);
    let name = name_of_code(code);
    format!("{code} ({name}), a {a}, b {b}, c {c}, d {d}, where {place}, word {word:08X}")
}

pub fn name_of_code(number: u32) -> &'static str {
    match number {
        code::CYCLE => "cycle",
        code::PLACE_PARAMETER => "place a parameter order",
        code::PLACE_RESET => "place a reset order",
        code::COLLECT => "collect",
        code::WRITE_OUTPUTS => "write outputs",
        code::READ_INPUTS => "read inputs",
        code::READ_LISTS => "read the lists",
        code::SET_MODE => "set the mode",
        code::SET_OFFLINE => "set the offline request",
        code::PROJECT => "project",
        code::UNPROJECT => "unproject",
        code::TAKE_OVER => "take over",
        _ => "projection",
    }
}

/// What a word of a call's log means.
fn meaning(word: usize) -> String {
    let meaning = match word {
        0 => "outcome".to_string(),
        1..=6 => format!("value {word} of the outcome"),
        7 => "orders that wait".to_string(),
        8 => "answers uncollected".to_string(),
        9 => "mode".to_string(),
        10 => "LDS".to_string(),
        11 => "LAS".to_string(),
        12 => "LPS".to_string(),
        13 => "flags".to_string(),
        14..=77 if word.is_multiple_of(2) => {
            let address = (word - 14) / 2;
            format!("CDI, PCD, PI, PP, IDI and ODI of address {address}")
        }
        14..=77 => format!("misses of address {}", (word - 14) / 2),
        110 => "power in the image".to_string(),
        _ => format!("station {} in the image", word - 78),
    };
    format!("word {word} ({meaning})")
}

#[cfg(test)]
mod tests {
    use super::*;

    #[test]
    fn a_difference_is_found_and_said() {
        let succession = Succession::random(1, 3);
        let own = replayed(model::replay, &succession);
        let mut other = replayed(model::replay, &succession);
        assert!(first_difference(&succession, &other, &own).is_none());
        other.log[CALL_WORDS + 12] ^= 1;
        let text = first_difference(&succession, &other, &own).unwrap();
        assert!(text.contains("call 1:") && text.contains("word 12 (LPS)"));
        other = replayed(model::replay, &succession);
        other.words[3] ^= 1;
        let text = first_difference(&succession, &other, &own).unwrap();
        assert!(text.contains("word 3 of the image"));
        other = replayed(model::replay, &succession);
        other.calls += 1;
        let text = first_difference(&succession, &other, &own).unwrap();
        assert!(text.contains("number of calls"));
    }

    #[test]
    fn the_edits_of_a_projection_belong_to_its_call() {
        let codes = [12, 9, 10, 11, 9, 9, 0, 13, 0];
        let mut script = Vec::new();
        for code in codes {
            script.extend([code, 0, 0, 0, 0, 33, 0, 0]);
        }
        let lengths: Vec<usize> = calls_of(&script).map(|call| call.len()).collect();
        assert_eq!(lengths, [5, 1, 1, 1, 1]);
    }

    #[test]
    fn all_agree_with_themselves() {
        assert!(telegrams(1).is_ok());
        assert!(cycles(1).is_ok());
        assert!((0..20).all(|index| succession(7, index).is_ok()));
    }
}
