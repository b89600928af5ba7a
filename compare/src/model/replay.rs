//! A script of calls on a new master, and the log of it (COMPARE.md).

use std::iter::Peekable;
use std::slice::ChunksExact;

use super::image::{self, Image};
use super::line::{Bench, ImageRack, Line, Repeater};
use super::management::{Answer, Order, Unanswered};
use super::master::{Cycle, Master, Phase, Reading};
use super::numbers::{Nibble, Refusal};
use super::record::{Edit, Mode, Row};

pub const ENTRY_WORDS: usize = 8;
pub const CALL_WORDS: usize = 111;
pub const MOST_EDITS: usize = 4;
const MOST_ROOM: u32 = 8;

/// The line by its number, and how many places the queues are given.
#[derive(Clone, Copy)]
pub struct Setting {
    pub line: u32,
    pub order_room: u32,
    pub answer_room: u32,
}

/// Replays a script; gives how many calls were made.
pub fn replay(setting: Setting, words: &mut [u32], script: &[u32], log: &mut [u32]) -> usize {
    let master = Master::new(room(setting.order_room), room(setting.answer_room));
    let run = match setting.line {
        0 => run::<Bench>,
        1 => run::<Repeater<Bench>>,
        2 => run::<Repeater<Repeater<Bench>>>,
        3 => run::<Repeater<Repeater<Repeater<Bench>>>>,
        _ => run::<ImageRack>,
    };
    run(master, words, script, log)
}

fn room(number: u32) -> usize {
    number.min(MOST_ROOM) as usize
}

fn run<L: Line>(mut master: Master, words: &mut [u32], script: &[u32], log: &mut [u32]) -> usize {
    let Ok(image) = image::check(words) else {
        return 0;
    };
    let mut image = *image;
    let mut entries = Entries::of(script);
    let mut calls = 0;
    // Where the log has no place, the line is not altered either.
    for place in log.chunks_exact_mut(CALL_WORDS) {
        let Some(entry) = entries.next() else { break };
        alter(&mut image, entry);
        let mut line = L::open(&image);
        let outcome = call(&mut master, &mut line, entry, &mut entries);
        image = line.image();
        write_call(place, outcome, &master, &image);
        calls += 1;
    }
    words.copy_from_slice(&image);
    calls
}

#[derive(Clone, Copy)]
struct Entry {
    code: u32,
    a: u32,
    b: u32,
    c: u32,
    d: u32,
    place: u32,
    word: u32,
}

impl Entry {
    fn read(words: &[u32]) -> Entry {
        Entry {
            code: words[0],
            a: words[1],
            b: words[2],
            c: words[3],
            d: words[4],
            place: words[5],
            word: words[6],
        }
    }

    fn edit(self) -> Option<Edit> {
        match self.code {
            9 => Some(Edit::Project {
                address: self.a,
                io_code: self.b,
                id_code: self.c,
                parameter: self.d,
            }),
            10 => Some(Edit::Unproject { address: self.a }),
            11 => Some(Edit::TakeOver),
            _ => None,
        }
    }
}

struct Entries<'a> {
    parts: Peekable<ChunksExact<'a, u32>>,
}

impl<'a> Entries<'a> {
    /// A part of fewer words at the end is not looked at.
    fn of(script: &'a [u32]) -> Entries<'a> {
        Entries {
            parts: script.chunks_exact(ENTRY_WORDS).peekable(),
        }
    }

    fn next(&mut self) -> Option<Entry> {
        self.parts.next().map(Entry::read)
    }

    /// The next entry, if it is an edit.
    fn next_edit(&mut self) -> Option<Edit> {
        let edit = Entry::read(self.parts.peek()?).edit()?;
        self.parts.next();
        Some(edit)
    }
}

fn alter(image: &mut Image, entry: Entry) {
    let Ok(place) = usize::try_from(entry.place) else {
        return;
    };
    if place < image::WORDS && image::is_good_at(place, entry.word) {
        image[place] = entry.word;
    }
}

enum Outcome {
    Nothing,
    Cycle(Cycle),
    Answer(Answer),
    Inputs(Nibble),
    Lists(Reading),
    ProjectionClosed { accepted: u32 },
}

fn call<L: Line>(
    master: &mut Master,
    line: &mut L,
    entry: Entry,
    entries: &mut Entries,
) -> Result<Outcome, Refusal> {
    let nothing = |()| Outcome::Nothing;
    match entry.code {
        0 => Ok(Outcome::Cycle(master.cycle(line))),
        1 => master.place_parameter(entry.a, entry.b).map(nothing),
        2 => master.place_reset(entry.a).map(nothing),
        3 => master.collect().map(Outcome::Answer),
        4 => master.write_outputs(entry.a, entry.b).map(nothing),
        5 => master.read_inputs(entry.a).map(Outcome::Inputs),
        6 => Ok(Outcome::Lists(master.read_lists())),
        7 => master.set_mode(mode_of(entry.a)).map(nothing),
        8 => {
            master.set_offline(entry.a != 0);
            Ok(Outcome::Nothing)
        }
        _ => match entry.edit() {
            Some(edit) => master.edit(edit).map(nothing),
            None => Ok(projection(master, entries)),
        },
    }
}

fn mode_of(number: u32) -> Mode {
    match number {
        0 => Mode::Configuration,
        _ => Mode::Protected,
    }
}

fn projection(master: &mut Master, entries: &mut Entries) -> Outcome {
    let edits = std::iter::from_fn(|| entries.next_edit()).take(MOST_EDITS);
    Outcome::ProjectionClosed {
        accepted: master.projection(edits),
    }
}

fn write_call(
    place: &mut [u32],
    outcome: Result<Outcome, Refusal>,
    master: &Master,
    image: &Image,
) {
    let (outcome_words, rest) = place.split_at_mut(7);
    let (state, rest) = rest.split_at_mut(7);
    let (rows, image_words) = rest.split_at_mut(64);
    outcome_words.copy_from_slice(&words_of_outcome(outcome));
    let lists = master.read_lists();
    state.copy_from_slice(&[
        master.waiting() as u32,
        master.uncollected() as u32,
        match master.mode() {
            Mode::Configuration => 0,
            Mode::Protected => 1,
        },
        lists.lds,
        lists.las,
        lists.lps,
        lists.flags,
    ]);
    for (address, pair) in (0..32).zip(rows.chunks_exact_mut(2)) {
        let row = master.row(address);
        pair.copy_from_slice(&[values_word(row), u32::from(row.misses)]);
    }
    image_words.copy_from_slice(image);
}

fn words_of_outcome(outcome: Result<Outcome, Refusal>) -> [u32; 7] {
    match outcome {
        Err(refusal) => [refusal.number(), 0, 0, 0, 0, 0, 0],
        Ok(Outcome::Nothing) => [0; 7],
        Ok(Outcome::Cycle(cycle)) => [1, number_of_phase(cycle.phase), cycle.requests, 0, 0, 0, 0],
        Ok(Outcome::Answer(answer)) => words_of_answer(answer),
        Ok(Outcome::Inputs(nibble)) => [3, u32::from(nibble), 0, 0, 0, 0, 0],
        Ok(Outcome::Lists(lists)) => [4, lists.lds, lists.las, lists.lps, lists.flags, 0, 0],
        Ok(Outcome::ProjectionClosed { accepted }) => [5, accepted, 0, 0, 0, 0, 0],
    }
}

fn number_of_phase(phase: Phase) -> u32 {
    match phase {
        Phase::Offline => 0,
        Phase::Detection => 1,
        Phase::Activation => 2,
        Phase::Normal => 3,
    }
}

fn words_of_answer(answer: Answer) -> [u32; 7] {
    let (kind, value) = match answer.order {
        Order::Parameter(_, value) => (0, u32::from(value)),
        Order::Reset(_) => (1, 0),
    };
    let (end, given) = match answer.result {
        Ok(nibble) => (0, u32::from(nibble)),
        Err(reason @ Unanswered::NotActive) => (1, reason.number()),
        Err(reason @ Unanswered::Silent) => (2, reason.number()),
        Err(reason @ Unanswered::Disturbed) => (3, reason.number()),
    };
    let address = u32::from(answer.order.address());
    [2, kind, address, value, end, given, 0]
}

/// The eight values of a row, a nibble each.
fn values_word(row: &Row) -> u32 {
    let values = [
        row.cdi.io, row.cdi.id, row.pcd.io, row.pcd.id, row.pi, row.pp, row.idi, row.odi,
    ];
    values
        .iter()
        .fold(0, |word, value| word << 4 | u32::from(*value))
}

#[cfg(test)]
mod tests {
    use super::*;

    fn setting(line: u32, room: u32) -> Setting {
        Setting {
            line,
            order_room: room,
            answer_room: room,
        }
    }

    const MODULE: u32 = 0x4709_FF00;
    const NO_PLACE: u32 = 33;
    const UNTOUCHED: u32 = 77;

    fn entry(code: u32, a: u32, b: u32) -> [u32; 8] {
        [code, a, b, 0, 0, NO_PLACE, 0, 0]
    }

    fn image_with(place: usize, word: u32) -> Vec<u32> {
        let mut words = vec![0; 33];
        words[32] = image::POWER_UP;
        words[place] = word;
        words
    }

    fn replay_all(line: u32, words: &mut [u32], script: &[[u32; 8]]) -> Vec<Vec<u32>> {
        let script = script.concat();
        let mut log = vec![UNTOUCHED; 111 * 40];
        let calls = replay(setting(line, 8), words, &script, &mut log);
        assert!(log[111 * calls..].iter().all(|word| *word == UNTOUCHED));
        let parts = log.chunks_exact(111).take(calls);
        parts.map(<[u32]>::to_vec).collect()
    }

    #[test]
    fn cycles_orders_and_answers() {
        let mut words = image_with(3, MODULE);
        let mut script = vec![entry(0, 0, 0); 3];
        script.push(entry(1, 3, 5));
        script.push(entry(0, 0, 0));
        script.push(entry(3, 0, 0));
        script.push(entry(3, 0, 0));
        let log = replay_all(0, &mut words, &script);
        assert_eq!(log[1][..3], [1, 1, 33]);
        assert_eq!(log[3][..8], [0, 0, 0, 0, 0, 0, 0, 1]);
        assert_eq!(log[4][..9], [1, 3, 3, 0, 0, 0, 0, 0, 1]);
        assert_eq!(log[5][..7], [2, 0, 3, 5, 0, 5, 0]);
        assert_eq!(log[6][0], 0x8312);
        // The values of address 3: cdi 7/0, pcd 15/15, pi 5, pp 15, idi 9.
        assert_eq!(log[6][14 + 6..14 + 8], [0x70FF_5F9F, 0]);
        assert_eq!(log[6][14..16], [0xFFFF_FF0F, 0]);
        assert_eq!(log[6][78 + 3], 0x4709_F580);
        assert_eq!(words[3], 0x4709_F580);
        assert_eq!(log[6][110], image::POWER_UP);
    }

    #[test]
    fn a_projection_takes_four_edits_at_most() {
        let mut words = image_with(3, MODULE);
        let mut edit = entry(9, 4, 1);
        // What an edit says of the line is not looked at.
        edit[5] = 3;
        let script = [
            entry(12, 0, 0),
            edit,
            entry(9, 0, 1),
            entry(10, 5, 0),
            entry(11, 0, 0),
            entry(9, 6, 2),
            entry(u32::MAX, 0, 0),
            entry(6, 0, 0),
        ];
        let log = replay_all(0, &mut words, &script);
        assert_eq!(log.len(), 4);
        assert_eq!(log[0][..2], [5, 3]);
        assert_eq!(log[1][0], 0);
        assert_eq!(log[2][..2], [5, 0]);
        assert_eq!(log[3][..5], [4, 0, 0, 1 << 6, 4]);
        assert_eq!(words[3], MODULE);
    }

    #[test]
    fn alterations_keep_the_image_good() {
        let mut words = image_with(3, MODULE);
        let script = [
            [6, 0, 0, 0, 0, 4, MODULE, 0],
            [6, 0, 0, 0, 0, 5, 1, 0],
            [6, 0, 0, 0, 0, 32, image::POWER_DOWN, 0],
            [6, 0, 0, 0, 0, 32, 0, 0],
            [6, 0, 0, 0, 0, 33, 0, 0],
        ];
        replay_all(9, &mut words, &script);
        let mut expected = image_with(3, MODULE);
        expected[4] = MODULE;
        expected[32] = image::POWER_DOWN;
        assert_eq!(words, expected);
    }

    #[test]
    fn no_place_no_call() {
        let script = [[6, 0, 0, 0, 0, 3, MODULE, 0]; 3].concat();
        let mut log = vec![UNTOUCHED; 221];
        let mut words = image_with(4, MODULE);
        assert_eq!(replay(setting(0, 0), &mut words, &script, &mut log), 1);
        assert_eq!(words[3], MODULE);
        assert!(log[111..].iter().all(|word| *word == UNTOUCHED));
        let mut words = image_with(4, MODULE);
        assert_eq!(
            replay(setting(0, 0), &mut words, &script, &mut log[..110]),
            0
        );
        assert_eq!(words, image_with(4, MODULE));
        assert_eq!(
            replay(setting(0, 0), &mut words, &script[..15], &mut log),
            1
        );
        assert_eq!(
            replay(setting(0, 0), &mut words[..32], &script, &mut log),
            0
        );
        words[5] = 1;
        assert_eq!(replay(setting(0, 0), &mut words, &script, &mut log), 0);
    }

    #[test]
    fn repeaters_spend_the_counts_of_the_rack_below() {
        for (line, spent) in [(0, 1), (1, 2), (2, 4), (3, 6), (4, 1)] {
            let mut words = image_with(3, 0x4709_FF60);
            let script = [entry(0, 0, 0), entry(6, 0, 0), entry(0, 0, 0)];
            let log = replay_all(line, &mut words, &script);
            // A call that carries nothing leaves the words alone.
            assert_eq!(log[1][78 + 3], 0x4709_FF60);
            assert_eq!(log[2][78 + 3] >> 4 & 7, 6 - spent, "line {line}");
        }
    }
}
