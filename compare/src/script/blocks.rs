//! The blocks that a script is made of: small scenes, each of which leads somewhere.

use super::{code, Script};
use crate::model::image::{POWER, POWER_DOWN, POWER_UP};
use crate::successions::plain_module;

impl Script<'_> {
    pub(super) fn start(&mut self) {
        if self.random.percent(30) {
            self.project_some();
        }
        if self.image[POWER] == POWER_DOWN && self.random.percent(70) {
            self.some_cycles(0, 3);
            self.alter(POWER as u32, POWER_UP);
        }
        if self.random.percent(90) {
            self.cycles(5);
        }
    }

    pub(super) fn block(&mut self) {
        match self.random.below(31) {
            0..=2 => self.run(),
            3..=7 => self.orders(),
            8 => self.full_queues(),
            9 => self.collect(),
            10..=11 => self.data(),
            12 => self.mode(),
            13..=14 => self.project_some(),
            15..=16 => self.commission(),
            17 => self.offline(),
            18 => self.power(),
            19 => self.plug_and_wait(),
            20 => self.unplug_and_wait(),
            21 => self.swap(),
            22..=23 => self.hot_plugging(),
            24..=25 => self.disturb(),
            26 => self.storm(),
            27 => self.flicker(),
            28 => self.alternate(),
            _ => self.damaged(),
        }
    }

    fn cycles(&mut self, count: u32) {
        for _ in 0..count {
            self.simple(code::CYCLE, 0);
        }
    }

    fn some_cycles(&mut self, least: u32, greatest: u32) {
        let count = self.random.between(least, greatest);
        self.cycles(count);
    }

    /// Cycles, before some of which something happens on the line.
    fn eventful_cycles(&mut self, least: u32, greatest: u32, percent: u32, event: fn(&mut Self)) {
        for _ in 0..self.random.between(least, greatest) {
            if self.random.percent(percent) {
                event(self);
            }
            self.cycles(1);
        }
    }

    fn run(&mut self) {
        self.eventful_cycles(10, 60, 10, |script| {
            let address = script.occupied();
            script.change_inputs(address);
        });
    }

    fn order(&mut self) {
        let address = self.address();
        self.order_at(address);
    }

    fn order_at(&mut self, address: u32) {
        if self.random.percent(70) {
            let value = self.nibble();
            self.entry(code::PLACE_PARAMETER, [address, value, 0, 0]);
        } else {
            self.simple(code::PLACE_RESET, address);
        }
    }

    fn collect(&mut self) {
        for _ in 0..self.random.between(1, 5) {
            self.simple(code::COLLECT, 0);
        }
    }

    /// Orders, sometimes into a line that is just altered, then their
    /// answers.
    fn orders(&mut self) {
        let orders = self.random.between(1, 4);
        for _ in 0..orders {
            self.order();
        }
        for _ in 0..orders + 1 {
            if self.random.percent(25) {
                let address = self.occupied();
                self.any_alteration(address);
            }
            self.cycles(1);
        }
        for _ in 0..orders {
            self.simple(code::COLLECT, 0);
        }
    }

    fn full_queues(&mut self) {
        for _ in 0..self.random.between(2, 4) {
            for _ in 0..self.random.between(2, 6) {
                self.order();
            }
            self.some_cycles(0, 4);
            if self.random.percent(40) {
                self.simple(code::COLLECT, 0);
            }
        }
        self.some_cycles(0, 9);
        if self.random.percent(50) {
            for _ in 0..9 {
                self.simple(code::COLLECT, 0);
            }
        }
    }

    fn data(&mut self) {
        for _ in 0..self.random.between(1, 3) {
            let address = self.address();
            let value = self.nibble();
            self.entry(code::WRITE_OUTPUTS, [address, value, 0, 0]);
            self.some_cycles(0, 2);
            let address = self.address();
            self.simple(code::READ_INPUTS, address);
        }
        self.simple(code::READ_LISTS, 0);
    }

    fn mode(&mut self) {
        let mode = self.random.one_of(&[0, 1, 1, 2, u32::MAX]);
        self.simple(code::SET_MODE, mode);
        self.some_cycles(0, 5);
    }

    /// An edit, as a call or for a projection.
    fn edit(&mut self) {
        match self.random.below(8) {
            0..=4 => {
                let address = self.address();
                let arguments = self.projected(address);
                self.entry(code::PROJECT, arguments);
            }
            5..=6 => {
                let address = self.address();
                self.simple(code::UNPROJECT, address);
            }
            _ => self.simple(code::TAKE_OVER, 0),
        }
    }

    /// Mostly the codes of the module that stands there.
    fn projected(&mut self, address: u32) -> [u32; 4] {
        let module = self.image.get(address as usize).copied();
        let codes = match module {
            Some(word) if word != 0 && self.random.percent(75) => {
                [word >> 24 & 15, word >> 20 & 15]
            }
            _ => [self.random.below(16), self.random.below(2)],
        };
        let io_code = self.number(codes[0]);
        let id_code = self.number(codes[1]);
        [address, io_code, id_code, self.nibble()]
    }

    fn project_some(&mut self) {
        if self.random.percent(70) {
            let code = self
                .random
                .one_of(&[code::PROJECTION, 13, 20, 256, 0x8000_0000, u32::MAX]);
            self.simple(code, 0);
        }
        for _ in 0..self.random.between(0, 6) {
            if self.random.percent(15) {
                let address = self.favourite();
                self.any_alteration(address);
            }
            self.edit();
        }
    }

    /// What stands there is taken over, and the mode is protected.
    fn commission(&mut self) {
        self.cycles(4);
        self.simple(code::TAKE_OVER, 0);
        self.simple(code::READ_LISTS, 0);
        self.simple(code::SET_MODE, 1);
        if self.random.percent(50) {
            self.restart();
        }
        if self.random.percent(50) {
            self.project_some();
        }
        self.some_cycles(3, 40);
    }

    fn restart(&mut self) {
        self.simple(code::SET_OFFLINE, 1);
        self.some_cycles(0, 2);
        self.simple(code::SET_OFFLINE, 0);
        self.cycles(4);
    }

    fn offline(&mut self) {
        let on = self.random.one_of(&[1, 1, 2, u32::MAX]);
        self.simple(code::SET_OFFLINE, on);
        if self.random.percent(40) {
            self.order();
        }
        self.some_cycles(0, 3);
        if self.random.percent(40) {
            self.order();
            self.data();
        }
        self.simple(code::SET_OFFLINE, 0);
        for _ in 0..self.random.between(0, 6) {
            self.cycles(1);
            if self.random.percent(30) {
                self.order();
            }
        }
    }

    fn power(&mut self) {
        self.alter(POWER as u32, POWER_DOWN);
        self.some_cycles(1, 3);
        if self.random.percent(30) {
            self.data();
        }
        self.alter(POWER as u32, POWER_UP);
        self.some_cycles(1, 8);
    }

    fn plug_and_wait(&mut self) {
        for _ in 0..self.random.between(1, 3) {
            let address = self.random.below(32);
            self.plug(address);
            self.some_cycles(1, 5);
        }
        self.some_cycles(30, 60);
    }

    fn unplug_and_wait(&mut self) {
        let address = self.occupied();
        if self.random.percent(50) {
            self.order_at(address);
        }
        self.alter(address, 0);
        self.some_cycles(1, 3);
        if self.random.percent(50) {
            self.order_at(address);
            self.order_at(address);
        }
        self.some_cycles(2, 5);
        self.collect();
        self.some_cycles(0, 40);
    }

    fn swap(&mut self) {
        let address = self.occupied();
        self.plug(address);
        self.some_cycles(3, 45);
    }

    /// Much happens at few addresses while the search goes round.
    fn hot_plugging(&mut self) {
        self.eventful_cycles(10, 50, 35, |script| {
            let address = script.favourite();
            script.any_alteration(address);
        });
    }

    /// One, two or more misses in succession, with orders between.
    fn disturb(&mut self) {
        for _ in 0..self.random.between(1, 4) {
            let address = self.occupied();
            if self.random.percent(60) {
                self.order_at(address);
            }
            self.disturb_at(address, 7);
            self.some_cycles(1, 6);
        }
        self.collect();
    }

    /// Many modules are unplugged or disturbed at once.
    fn storm(&mut self) {
        for _ in 0..self.random.between(2, 6) {
            let address = self.occupied();
            if self.random.percent(40) {
                self.alter(address, 0);
            } else {
                self.disturb_at(address, 7);
            }
            self.simple(code::READ_LISTS, 0);
        }
        self.some_cycles(3, 12);
    }

    /// Configuration and protected mode in turn: an address may be
    /// admissible when it is named and no more when it is to be entered.
    fn alternate(&mut self) {
        for index in 0..3 {
            let word = plain_module(self.random);
            self.alter(self.favourites[index], word);
            self.simple(code::SET_MODE, 0);
        }
        for _ in 0..self.random.between(5, 25) {
            self.simple(code::SET_MODE, 0);
            self.cycles(1);
            self.simple(code::SET_MODE, 1);
            self.cycles(1);
        }
    }

    /// The mode and what is projected change while the search is on its way.
    fn flicker(&mut self) {
        for _ in 0..self.random.between(10, 40) {
            if self.random.percent(15) {
                let address = self.favourite();
                self.plug(address);
            }
            self.cycles(1);
            match self.random.below(6) {
                0 => self.simple(code::SET_MODE, 0),
                1 => self.simple(code::SET_MODE, 1),
                2 => {
                    let address = self.favourite();
                    let arguments = self.projected(address);
                    self.simple(code::PROJECTION, 0);
                    self.entry(code::PROJECT, arguments);
                }
                3 => {
                    let address = self.favourite();
                    self.simple(code::PROJECTION, 0);
                    self.simple(code::UNPROJECT, address);
                }
                _ => {}
            }
        }
    }

    /// Entries of any numbers at all.
    fn damaged(&mut self) {
        for _ in 0..self.random.between(1, 6) {
            let code = self.random.below(14);
            let code = self.number(code);
            let arguments = std::array::from_fn(|_| self.nibble());
            self.alter_badly();
            self.entry(code, arguments);
        }
    }
}
