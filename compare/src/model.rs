//! The rules of the master a second time, read from docs/ alone.
//!
//! Nothing here is shared with the proved crates.

pub mod image;
pub mod line;
pub mod lists;
pub mod management;
pub mod master;
pub mod numbers;
pub mod phases;
pub mod record;
pub mod replay;
pub mod search;
pub mod station;
pub mod telegrams;

use image::Image;
use line::{Bench, Line};
use master::Master;
use numbers::Refusal;
use telegrams::{Cause, Request};

// What follows are the functions of COMPARE.md, by their plain numbers. The
// linked library offers the same ones, so that the two stand side by side.

pub use replay::replay;

/// The word of a request, or the number by which making it is refused.
pub fn encode_request(kind: u32, address: u32, value: u32) -> u32 {
    match Request::from_numbers(kind, address, value) {
        Ok(request) => request.encode(),
        Err(refusal) => refusal.number(),
    }
}

/// `kind << 16 | address << 8 | value`, or the cause beside 8314.
pub fn decode_request(word: u32) -> u32 {
    match Request::decode(word) {
        Ok(request) => {
            request.kind() << 16 | u32::from(request.address()) << 8 | u32::from(request.value())
        }
        Err(cause) => refused_telegram(cause),
    }
}

/// The word of a reply, or the number by which the nibble is refused.
pub fn encode_reply(value: u32) -> u32 {
    match numbers::nibble(value) {
        Ok(nibble) => telegrams::encode_reply(nibble),
        Err(refusal) => refusal.number(),
    }
}

/// The nibble, or the cause beside 8314.
pub fn decode_reply(word: u32) -> u32 {
    match telegrams::decode_reply(word) {
        Ok(nibble) => u32::from(nibble),
        Err(cause) => refused_telegram(cause),
    }
}

/// How many requests that many cycles of a new master send on a bench rack.
pub fn cycles(words: &[u32], cycles: u32) -> u32 {
    match image::check(words) {
        Ok(image) => requests_of_cycles(image, cycles),
        Err(refusal) => refusal.number(),
    }
}

fn requests_of_cycles(image: &Image, cycles: u32) -> u32 {
    let mut line = Bench::open(image);
    let mut master = Master::new(0, 0);
    let mut requests = 0u32;
    for _ in 0..cycles {
        requests = requests.wrapping_add(master.cycle(&mut line).requests);
    }
    requests
}

fn refused_telegram(cause: Cause) -> u32 {
    Refusal::BadTelegram(cause).number() << 16 | cause.number()
}

#[cfg(test)]
mod tests {
    use super::*;

    #[test]
    fn numbers_of_the_telegram_functions() {
        assert_eq!(encode_request(0, 3, 15), 445);
        assert_eq!(encode_request(2, 0, 99), 4161);
        assert_eq!(encode_request(3, 3, 0), 4551);
        assert_eq!(encode_request(1, 31, 5), 4053);
        assert_eq!(encode_request(0, 0, 99), 0x8381);
        assert_eq!(encode_request(1, 1, 16), 0x8310);
        assert_eq!(encode_request(77, 32, 0), 0x8381);
        assert_eq!(decode_request(445), 3 << 8 | 15);
        assert_eq!(decode_request(441), 0x8314_0004);
        assert_eq!(decode_request(444), 0x8314_0003);
        assert_eq!(decode_request(4171), 0x8314_0005);
        assert_eq!(encode_reply(7), 31);
        assert_eq!(encode_reply(0), 1);
        assert_eq!(encode_reply(16), 0x8310);
        assert_eq!(decode_reply(31), 7);
        assert_eq!(decode_reply(128), 0x8314_0001);
    }

    #[test]
    fn cycles_of_one_module() {
        let mut words = [0; 33];
        words[3] = 0x4709_FF00;
        words[32] = 0xC000_0001;
        let sums: Vec<u32> = (0..5).map(|n| cycles(&words, n)).collect();
        assert_eq!(sums, [0, 0, 33, 34, 36]);
        words[32] = 1;
        assert_eq!(cycles(&words, 4), 0x8313);
        assert_eq!(cycles(&words[..32], 4), 0x8313);
    }
}
