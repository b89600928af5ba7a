//! Orders and their answers (RECORD.md, QUEUES.md, CYCLE.md).

use std::collections::VecDeque;

use super::line::Line;
use super::numbers::{Address, Nibble, Refusal};
use super::record::Record;
use super::station::Reply;
use super::telegrams::Request;

#[derive(Clone, Copy, Debug, PartialEq, Eq)]
pub enum Order {
    Parameter(Address, Nibble),
    Reset(Address),
}

impl Order {
    pub fn address(self) -> Address {
        match self {
            Order::Parameter(address, _) | Order::Reset(address) => address,
        }
    }

    fn request(self) -> Request {
        match self {
            Order::Parameter(address, value) => Request::WriteParameter(address, value),
            Order::Reset(address) => Request::Reset(address),
        }
    }
}

/// Why an order got no nibble.
#[derive(Clone, Copy, Debug, PartialEq, Eq)]
pub enum Unanswered {
    NotActive,
    Silent,
    Disturbed,
}

impl Unanswered {
    pub fn number(self) -> u32 {
        match self {
            Unanswered::NotActive => 0x8382,
            Unanswered::Silent | Unanswered::Disturbed => 0x8383,
        }
    }
}

#[derive(Clone, Copy, Debug, PartialEq, Eq)]
pub struct Answer {
    pub order: Order,
    pub result: Result<Nibble, Unanswered>,
}

pub struct Queues {
    orders: VecDeque<Order>,
    answers: VecDeque<Answer>,
    order_room: usize,
    answer_room: usize,
}

impl Queues {
    pub fn new(order_room: usize, answer_room: usize) -> Queues {
        Queues {
            orders: VecDeque::with_capacity(order_room),
            answers: VecDeque::with_capacity(answer_room),
            order_room,
            answer_room,
        }
    }

    /// Every order that is accepted must find room for its answer, so those
    /// that still wait count too.
    pub fn place(&mut self, order: Order) -> Result<(), Refusal> {
        let to_come = self.orders.len() + self.answers.len();
        if self.orders.len() == self.order_room || to_come >= self.answer_room {
            return Err(Refusal::QueueFull);
        }
        self.orders.push_back(order);
        Ok(())
    }

    pub fn collect(&mut self) -> Result<Answer, Refusal> {
        self.answers.pop_front().ok_or(Refusal::NoAnswer)
    }

    pub fn waiting(&self) -> usize {
        self.orders.len()
    }

    pub fn uncollected(&self) -> usize {
        self.answers.len()
    }

    fn next_order(&mut self) -> Option<Order> {
        if self.answers.len() == self.answer_room {
            return None;
        }
        self.orders.pop_front()
    }
}

/// Management of one cycle: at most one order. Gives how many requests it
/// sent.
pub fn manage<L: Line>(queues: &mut Queues, record: &mut Record, line: &mut L) -> u32 {
    let Some(order) = queues.next_order() else {
        return 0;
    };
    let active = record.las.contains(order.address());
    let result = if active {
        send(order, record, line)
    } else {
        Err(Unanswered::NotActive)
    };
    queues.answers.push_back(Answer { order, result });
    u32::from(active)
}

fn send<L: Line>(order: Order, record: &mut Record, line: &mut L) -> Result<Nibble, Unanswered> {
    match line.carry(order.request()) {
        Reply::Nibble(nibble) => {
            // The ordered value counts, whatever came back.
            if let Order::Parameter(address, value) = order {
                record.row_mut(address).pi = value;
            }
            Ok(nibble)
        }
        Reply::Silence => Err(Unanswered::Silent),
        Reply::Disturbed => Err(Unanswered::Disturbed),
    }
}

#[cfg(test)]
mod tests {
    use super::*;

    #[test]
    fn rooms() {
        let order = Order::Reset(3);
        let full = Err(Refusal::QueueFull);
        assert_eq!(Queues::new(0, 8).place(order), full);
        assert_eq!(Queues::new(8, 0).place(order), full);
        let mut queues = Queues::new(2, 8);
        assert_eq!(queues.place(order), Ok(()));
        assert_eq!(queues.place(order), Ok(()));
        assert_eq!(queues.place(order), full);
        let mut queues = Queues::new(8, 1);
        assert_eq!(queues.place(order), Ok(()));
        assert_eq!(queues.place(order), full);
        assert_eq!(queues.collect(), Err(Refusal::NoAnswer));
        assert_eq!((queues.waiting(), queues.uncollected()), (1, 0));
    }
}
