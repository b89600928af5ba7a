//! The master: its state, its calls and its cycle (RECORD.md, CYCLE.md).

use super::line::Line;
use super::management::{self, Answer, Order, Queues};
use super::numbers::{self, Address, Refusal};
use super::phases;
use super::record::{Edit, Mode, Record, Row};
use super::search::Step;

#[derive(Clone, Copy, Debug, PartialEq, Eq)]
pub enum Phase {
    Offline,
    Detection,
    Activation,
    Normal,
}

/// What a cycle reports.
#[derive(Clone, Copy, Debug, PartialEq, Eq)]
pub struct Cycle {
    pub phase: Phase,
    pub requests: u32,
}

/// A reading of the lists.
#[derive(Clone, Copy, Debug, PartialEq, Eq)]
pub struct Reading {
    pub lds: u32,
    pub las: u32,
    pub lps: u32,
    pub flags: u32,
}

pub struct Master {
    record: Record,
    queues: Queues,
    phase: Phase,
    search: Step,
    offline_requested: bool,
    power_fail: bool,
}

impl Master {
    pub fn new(order_room: usize, answer_room: usize) -> Master {
        Master {
            record: Record::new(),
            queues: Queues::new(order_room, answer_room),
            phase: Phase::Offline,
            search: Step::NEW,
            offline_requested: false,
            power_fail: false,
        }
    }

    pub fn cycle<L: Line>(&mut self, line: &mut L) -> Cycle {
        let power = line.power_is_up();
        let phase = if self.offline_requested || !power {
            Phase::Offline
        } else {
            self.phase
        };
        let requests = match phase {
            Phase::Offline => {
                self.go_offline(power);
                0
            }
            Phase::Detection => phases::detect(&mut self.record, line),
            Phase::Activation => phases::activate(&mut self.record, line),
            Phase::Normal => self.operate(line),
        };
        self.phase = match phase {
            Phase::Offline if self.offline_requested || !power => Phase::Offline,
            Phase::Offline => Phase::Detection,
            Phase::Detection => Phase::Activation,
            Phase::Activation | Phase::Normal => Phase::Normal,
        };
        Cycle { phase, requests }
    }

    fn go_offline(&mut self, power: bool) {
        self.record.forget_all();
        self.search = Step::NEW;
        self.power_fail = !power;
    }

    /// The order matters: management and search find the record as data
    /// exchange left it.
    fn operate<L: Line>(&mut self, line: &mut L) -> u32 {
        let exchanged = phases::exchange_data(&mut self.record, line);
        let managed = management::manage(&mut self.queues, &mut self.record, line);
        let (next, searched) = self.search.take(&mut self.record, line);
        self.search = next;
        exchanged + managed + searched
    }

    pub fn place_parameter(&mut self, address: u32, value: u32) -> Result<(), Refusal> {
        let address = numbers::module_address(address)?;
        let value = numbers::nibble(value)?;
        self.place(Order::Parameter(address, value))
    }

    pub fn place_reset(&mut self, address: u32) -> Result<(), Refusal> {
        let address = numbers::module_address(address)?;
        self.place(Order::Reset(address))
    }

    fn place(&mut self, order: Order) -> Result<(), Refusal> {
        if self.phase != Phase::Normal {
            return Err(Refusal::WrongPhase);
        }
        if !self.record.las.contains(order.address()) {
            return Err(Refusal::NotActive);
        }
        self.queues.place(order)
    }

    pub fn collect(&mut self) -> Result<Answer, Refusal> {
        self.queues.collect()
    }

    pub fn write_outputs(&mut self, address: u32, value: u32) -> Result<(), Refusal> {
        self.record.write_outputs(address, value)
    }

    pub fn read_inputs(&self, address: u32) -> Result<u8, Refusal> {
        self.record.read_inputs(address)
    }

    pub fn set_mode(&mut self, mode: Mode) -> Result<(), Refusal> {
        self.record.set_mode(mode)
    }

    pub fn set_offline(&mut self, requested: bool) {
        self.offline_requested = requested;
    }

    pub fn edit(&mut self, edit: Edit) -> Result<(), Refusal> {
        self.record.edit(edit)
    }

    pub fn projection(&mut self, edits: impl Iterator<Item = Edit>) -> u32 {
        self.record.projection(edits)
    }

    pub fn read_lists(&self) -> Reading {
        let flags = [
            self.record.config_ok(),
            self.record.lds.contains(0),
            self.record.mode == Mode::Configuration,
            self.phase == Phase::Normal,
            self.power_fail,
            self.offline_requested,
        ];
        Reading {
            lds: self.record.lds.bits(),
            las: self.record.las.bits(),
            lps: self.record.lps.bits(),
            flags: flags
                .iter()
                .rev()
                .fold(0, |bits, flag| bits << 1 | u32::from(*flag)),
        }
    }

    pub fn mode(&self) -> Mode {
        self.record.mode
    }

    pub fn waiting(&self) -> usize {
        self.queues.waiting()
    }

    pub fn uncollected(&self) -> usize {
        self.queues.uncollected()
    }

    pub fn row(&self, address: Address) -> &Row {
        self.record.row(address)
    }
}

#[cfg(test)]
mod tests {
    use super::super::image::{Image, POWER, POWER_DOWN, POWER_UP};
    use super::super::line::Bench;
    use super::super::management::Unanswered;
    use super::*;

    const MODULE: u32 = 0x4709_FF00;

    fn image(modules: &[(usize, u32)]) -> Image {
        let mut words = [0; 33];
        words[POWER] = POWER_UP;
        for (address, word) in modules {
            words[*address] = *word;
        }
        words
    }

    fn line(modules: &[(usize, u32)]) -> Bench {
        Bench::open(&image(modules))
    }

    fn run(master: &mut Master, line: &mut Bench, cycles: u32) {
        for _ in 0..cycles {
            master.cycle(line);
        }
    }

    /// The listing of IMAGES.md.
    #[test]
    fn listing_of_one_module() {
        let mut line = line(&[(3, MODULE)]);
        let mut master = Master::new(1, 1);
        let lines = (0..4).map(|_| {
            let cycle = master.cycle(&mut line);
            let lists = master.read_lists();
            (cycle.phase, lists.lds, lists.las, cycle.requests)
        });
        let expected = [
            (Phase::Offline, 0, 0, 0),
            (Phase::Detection, 8, 0, 33),
            (Phase::Activation, 8, 8, 1),
            (Phase::Normal, 8, 8, 2),
        ];
        assert!(lines.eq(expected));
    }

    /// examples/mixed.txt: all are detected but the one whose next two
    /// requests are disturbed.
    #[test]
    fn detection_of_the_mixed_image() {
        let mut line = line(&[
            (0, 0x43A0_FF0C),
            (1, 0x4709_F580),
            (9, 0x4FFF_FF00),
            (20, 0x4150_FF28),
            (31, 0x4012_FF00),
        ]);
        let mut master = Master::new(1, 1);
        run(&mut master, &mut line, 2);
        assert_eq!(master.read_lists().lds, 1 | 1 << 1 | 1 << 9 | 1 << 31);
        assert_eq!(master.cycle(&mut line).requests, 2);
        assert_eq!(master.read_lists().las, 1 << 1 | 1 << 31);
    }

    #[test]
    fn the_most_requests_of_a_normal_cycle() {
        let modules: Vec<_> = (0..32).map(|address| (address, MODULE)).collect();
        let mut line = line(&modules);
        let mut master = Master::new(1, 1);
        assert_eq!(master.cycle(&mut line).requests, 0);
        assert_eq!(master.cycle(&mut line).requests, 64);
        assert_eq!(master.cycle(&mut line).requests, 31);
        assert_eq!(master.place_reset(31), Ok(()));
        assert_eq!(master.cycle(&mut line).requests, 33);
    }

    #[test]
    fn the_third_miss_drops_an_address() {
        let mut line = line(&[(3, MODULE)]);
        let mut master = Master::new(4, 4);
        run(&mut master, &mut line, 4);
        assert_eq!(master.read_inputs(3), Ok(9));
        assert_eq!(master.place_parameter(3, 4), Ok(()));
        assert_eq!(master.place_parameter(3, 5), Ok(()));
        assert_eq!(master.place_parameter(3, 6), Ok(()));
        let mut empty = Bench::open(&image(&[]));
        run(&mut master, &mut empty, 2);
        assert_eq!((master.row(3).misses, master.row(3).idi), (2, 9));
        master.cycle(&mut empty);
        assert_eq!((master.row(3).misses, master.row(3).idi), (0, 0));
        assert_eq!(master.read_lists().lds, 0);
        let ends: Vec<_> = (0..3).map(|_| master.collect().unwrap().result).collect();
        let silent = Err(Unanswered::Silent);
        assert_eq!(ends, [silent, silent, Err(Unanswered::NotActive)]);
        assert_eq!(master.row(3).pi, 15);
        assert_eq!(master.place_reset(3), Err(Refusal::NotActive));
    }

    #[test]
    fn the_search_activates_a_plugged_module() {
        let mut line = line(&[]);
        let mut master = Master::new(4, 4);
        run(&mut master, &mut line, 4);
        let mut plugged = Bench::open(&image(&[(3, MODULE)]));
        // Seek(1), Seek(2), Seek(3), Name(3), Enter(3).
        run(&mut master, &mut plugged, 4);
        assert_eq!(master.read_lists().lds, 8);
        assert_eq!(master.read_lists().las, 0);
        master.cycle(&mut plugged);
        assert_eq!(master.read_lists().las, 8);
    }

    #[test]
    fn a_reset_module_is_dropped_and_entered_again() {
        let mut line = line(&[(3, MODULE)]);
        let mut master = Master::new(4, 4);
        run(&mut master, &mut line, 4);
        assert_eq!(master.place_reset(3), Ok(()));
        run(&mut master, &mut line, 4);
        assert_eq!(master.collect().unwrap().result, Ok(6));
        assert_eq!(master.read_lists().las, 0);
        run(&mut master, &mut line, 36);
        assert_eq!(master.read_lists().las, 8);
    }

    #[test]
    fn phases_and_flags() {
        let mut line = line(&[(3, MODULE)]);
        let mut down = line_down();
        let mut master = Master::new(4, 4);
        assert_eq!(master.place_parameter(32, 16), Err(Refusal::BadAddress));
        assert_eq!(master.place_parameter(3, 16), Err(Refusal::BadValue));
        assert_eq!(master.place_parameter(3, 1), Err(Refusal::WrongPhase));
        assert_eq!(master.read_lists().flags, 1 | 4);
        run(&mut master, &mut line, 3);
        // The activation cycle ran, so the phase is normal now.
        assert_eq!(master.place_parameter(3, 1), Ok(()));
        assert_eq!(master.read_lists().flags, 4 | 8);
        master.set_offline(true);
        assert_eq!(master.place_parameter(3, 1), Ok(()));
        assert_eq!(master.read_lists().flags, 4 | 8 | 32);
        assert_eq!(master.cycle(&mut line).phase, Phase::Offline);
        assert_eq!(master.read_lists().flags, 1 | 4 | 32);
        master.set_offline(false);
        assert_eq!(master.cycle(&mut down).phase, Phase::Offline);
        assert_eq!(master.read_lists().flags, 1 | 4 | 16);
        assert_eq!(master.waiting(), 2);
        assert_eq!(master.cycle(&mut line).phase, Phase::Offline);
        assert_eq!(master.cycle(&mut line).phase, Phase::Detection);
    }

    fn line_down() -> Bench {
        let mut words = image(&[(3, MODULE)]);
        words[POWER] = POWER_DOWN;
        Bench::open(&words)
    }

    #[test]
    fn protected_mode_activates_only_what_is_projected() {
        let mut line = line(&[(3, MODULE), (4, 0x4719_FF00)]);
        let mut master = Master::new(4, 4);
        let edit = Edit::Project {
            address: 3,
            io_code: 7,
            id_code: 0,
            parameter: 5,
        };
        assert_eq!(master.edit(edit), Ok(()));
        assert_eq!(master.set_mode(Mode::Protected), Ok(()));
        run(&mut master, &mut line, 3);
        assert_eq!(master.read_lists().lds, 8 | 16);
        assert_eq!(master.read_lists().las, 8);
        assert_eq!(master.row(3).pi, 5);
        // One that is active stays so.
        assert_eq!(
            master.projection([Edit::Unproject { address: 3 }].into_iter()),
            1
        );
        run(&mut master, &mut line, 50);
        assert_eq!(master.read_lists().las, 8);
    }
}
