//! Counts how often the interesting events come up in the random
//! successions. It reads nothing but the words of the logs.

use crate::differences::replayed;
use crate::model;
use crate::model::image::{POWER_DOWN, WORDS};
use crate::model::replay::CALL_WORDS;
use crate::successions::Succession;

/// Counts by name, in the order in which the names are first listed.
#[derive(Default)]
struct Table {
    rows: Vec<(String, u64)>,
}

impl Table {
    fn add(&mut self, name: &str, count: u64) {
        match self.rows.iter_mut().find(|(known, _)| known == name) {
            Some((_, sum)) => *sum += count,
            None => self.rows.push((name.to_string(), count)),
        }
    }

    fn count(&mut self, name: &str, happened: bool) {
        self.add(name, u64::from(happened));
    }
}

pub fn print(successions: u64, seed: u64) {
    let mut table = Table::default();
    for index in 0..successions {
        let succession = Succession::random(seed, index);
        let own = replayed(model::replay, &succession);
        table.count("successions", true);
        table.count("successions without a call", own.calls == 0);
        table.add("calls", own.calls as u64);
        let log = &own.log[..own.calls * CALL_WORDS];
        count_log(&mut table, log);
    }
    for (name, count) in &table.rows {
        println!("{count:>8}  {name}");
    }
}

fn count_log(table: &mut Table, log: &[u32]) {
    let mut before: Option<Call> = None;
    for words in log.chunks_exact(CALL_WORDS) {
        let call = Call { words };
        count_outcome(table, call);
        count_state(table, call);
        if let Some(before) = before {
            count_change(table, before, call);
        }
        before = Some(call);
    }
}

const CYCLE: u32 = 1;
const ANSWER: u32 = 2;
const CLOSED: u32 = 5;

/// The words of one call, by their meanings.
#[derive(Clone, Copy)]
struct Call<'a> {
    words: &'a [u32],
}

impl Call<'_> {
    fn outcome(self) -> u32 {
        self.words[0]
    }

    fn ran(self, phase: u32) -> bool {
        self.outcome() == CYCLE && self.words[1] == phase
    }

    fn requests(self) -> u32 {
        self.words[2]
    }

    fn waiting(self) -> u32 {
        self.words[7]
    }

    fn uncollected(self) -> u32 {
        self.words[8]
    }

    fn protected(self) -> bool {
        self.words[9] == 1
    }

    fn lds(self) -> u32 {
        self.words[10]
    }

    fn las(self) -> u32 {
        self.words[11]
    }

    fn lps(self) -> u32 {
        self.words[12]
    }

    fn flag(self, bit: u32) -> bool {
        self.words[13] & bit != 0
    }

    fn values(self, address: usize) -> u32 {
        self.words[14 + 2 * address]
    }

    fn cdi(self, address: usize) -> u32 {
        self.values(address) >> 24
    }

    fn pcd(self, address: usize) -> u32 {
        self.values(address) >> 16 & 255
    }

    fn pi(self, address: usize) -> u32 {
        self.values(address) >> 12 & 15
    }

    fn pp(self, address: usize) -> u32 {
        self.values(address) >> 8 & 15
    }

    fn misses(self, address: usize) -> u32 {
        self.words[15 + 2 * address]
    }

    fn image(self) -> [u32; WORDS] {
        std::array::from_fn(|place| self.words[78 + place])
    }

    /// Addresses for which something holds.
    fn addresses(self, holds: impl Fn(usize) -> bool) -> usize {
        (0..32).filter(|address| holds(*address)).count()
    }
}

fn is_in(list: u32, address: usize) -> bool {
    list >> address & 1 == 1
}

fn count_outcome(table: &mut Table, call: Call) {
    for (number, name) in [
        (0, "outcome: nothing given"),
        (1, "outcome: a cycle"),
        (2, "outcome: an answer"),
        (3, "outcome: inputs"),
        (4, "outcome: lists"),
        (5, "outcome: a projection was closed"),
        (0x8381, "refused: 8381 BadAddress"),
        (0x8310, "refused: 8310 BadValue"),
        (0x8384, "refused: 8384 WrongPhase"),
        (0x8382, "refused: 8382 NotActive"),
        (0x8311, "refused: 8311 QueueFull"),
        (0x8385, "refused: 8385 AddressZeroDetected"),
        (0x8312, "refused: 8312 NoAnswer"),
    ] {
        table.count(name, call.outcome() == number);
    }
    table.count("refused: 8384, an order", is_order_in_wrong_phase(call));
    table.count("phase: offline", call.ran(0));
    table.count("phase: detection", call.ran(1));
    table.count("phase: activation", call.ran(2));
    table.count("phase: normal", call.ran(3));
    for (kind, of) in ["parameter order", "reset order"].iter().enumerate() {
        for (end, how) in ["nibble", "not active", "silence", "disturbed"]
            .iter()
            .enumerate()
        {
            let happened = call.outcome() == ANSWER
                && call.words[1] == kind as u32
                && call.words[4] == end as u32;
            table.count(&format!("answer: {of}, {how}"), happened);
        }
    }
    for accepted in 0..=4 {
        let happened = call.outcome() == CLOSED && call.words[1] == accepted;
        table.count(&format!("projection: {accepted} edits accepted"), happened);
    }
    let in_protected_mode = call.outcome() == CLOSED && call.protected();
    table.count("projection: in protected mode", in_protected_mode);
    table.count(
        "projection: in protected mode, 0 detected",
        in_protected_mode && call.flag(2),
    );
}

/// In configuration mode no edit is refused with 8384.
fn is_order_in_wrong_phase(call: Call) -> bool {
    call.outcome() == 0x8384 && !call.protected()
}

fn count_state(table: &mut Table, call: Call) {
    for (bit, name) in [
        (1, "flag: Config_OK"),
        (2, "flag: LDS.0"),
        (4, "flag: Configuration_Active"),
        (8, "flag: Normal_Operation_Active"),
        (16, "flag: APF"),
        (32, "flag: Offline"),
    ] {
        table.count(name, call.flag(bit));
    }
    table.count(
        "state: Config_OK with modules, protected",
        call.flag(1) && call.lds() != 0 && call.protected(),
    );
    table.count(
        "state: LDS is LPS, codes differ",
        call.lds() == call.lps() && call.lds() != 0 && !call.flag(1),
    );
    table.count("state: orders wait", call.waiting() > 0);
    table.count("state: 4 or more orders wait", call.waiting() >= 4);
    table.count("state: answers uncollected", call.uncollected() > 0);
    table.count("state: 31 active", call.las().count_ones() == 31);
    let unactive = call.lds() & !call.las() & !1;
    table.count("state: detected, not active", unactive != 0);
    table.count(
        "state: detected with I/O code 15",
        call.addresses(|a| is_in(call.lds(), a) && call.cdi(a) >> 4 == 15) > 0,
    );
    table.count(
        "state: active, not as projected, protected",
        call.protected()
            && call.addresses(|a| is_in(call.las(), a) && call.cdi(a) != call.pcd(a)) > 0,
    );
    table.count(
        "state: PI is not PP",
        call.addresses(|a| call.pi(a) != call.pp(a)) > 0,
    );
    let image = call.image();
    table.count("state: power down", image[32] == POWER_DOWN);
    table.count(
        "state: a module is disturbed",
        image[..32].iter().any(|word| word >> 4 & 7 > 0),
    );
}

fn count_change(table: &mut Table, before: Call, call: Call) {
    let lost = before.las() & !call.las();
    let gained = call.las() & !before.las();
    let found = call.lds() & !before.lds();
    let forgotten = before.lds() & !call.lds() & !lost;
    if call.ran(3) {
        let dropped = u64::from(lost.count_ones());
        table.add("normal: drops", dropped);
        table.count("normal: two or more drops in a cycle", dropped > 1);
        table.count("normal: found by search", found != 0);
        table.count("normal: activated by search", gained != 0);
        let by_search = gained != 0 && call.protected();
        table.count("normal: activated by search, protected", by_search);
        table.count("normal: forgotten by search", forgotten != 0);
        let held = before.lds() & call.lds();
        let other = call.addresses(|a| is_in(held, a) && call.cdi(a) != before.cdi(a));
        table.count("normal: found with other codes", other > 0);
        let (some, two) = (count_misses(call, 1), count_misses(call, 2));
        table.count("normal: one miss stands", some > 0);
        table.count("normal: two misses stand", two > 0);
        let recovered =
            call.addresses(|a| is_in(call.las(), a) && before.misses(a) > 0 && call.misses(a) == 0);
        table.count("normal: misses cleared", recovered > 0);
        count_requests(table, before, call);
    }
    if call.ran(2) {
        table.count("activation: some activated", gained != 0);
        let left = call.lds() & !call.las() & !1;
        table.count("activation: some left out", left != 0);
        let both = gained != 0 && left != 0 && call.protected();
        table.count("activation: protected, both", both);
    }
    if call.ran(1) {
        table.count("detection: some detected", call.lds() != 0);
        table.count("detection: 0 detected", call.flag(2));
    }
    if call.ran(0) {
        let fallen = before.flag(8);
        table.count("offline: out of normal operation", fallen);
        table.count("offline: with orders that wait", call.waiting() > 0);
    }
    if call.outcome() != CYCLE {
        table.count("edits: LPS changed", call.lps() != before.lps());
    }
}

fn count_misses(call: Call, number: u32) -> usize {
    call.addresses(|address| call.misses(address) == number)
}

/// Which parts of a normal cycle sent something, told by the number.
fn count_requests(table: &mut Table, before: Call, call: Call) {
    let exchanged = before.las().count_ones();
    let rest = call.requests() - exchanged;
    table.count("normal: 33 requests", call.requests() == 33);
    let managed = before.waiting() > 0;
    table.count("normal: an order and a step sent", managed && rest == 2);
    table.count(
        "normal: an order, nothing sent for it",
        managed && rest == 1,
    );
    table.count("normal: nothing to enter any more", rest == 0);
}
