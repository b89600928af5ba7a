//! Lines: the two racks and the repeater (LINES.md).

use super::image::{self, Image, STATIONS};
use super::station::{Reply, Station};
use super::telegrams::Request;

pub trait Line: Sized {
    /// The line of this kind over a good image.
    fn open(image: &Image) -> Self;

    /// The image from which this line would be opened as it stands now.
    fn image(&self) -> Image;

    fn power_is_up(&self) -> bool;

    fn carry(&mut self, request: Request) -> Reply;
}

/// A rack with a table of stations.
pub struct Bench {
    power: bool,
    stations: [Station; STATIONS],
}

impl Line for Bench {
    fn open(words: &Image) -> Bench {
        Bench {
            power: power_in(words),
            stations: std::array::from_fn(|address| station_in(words, address)),
        }
    }

    fn image(&self) -> Image {
        let mut words = [0; image::WORDS];
        for (word, station) in words.iter_mut().zip(self.stations) {
            *word = image::word_of(station);
        }
        words[image::POWER] = image::power_word(self.power);
        words
    }

    fn power_is_up(&self) -> bool {
        self.power
    }

    fn carry(&mut self, request: Request) -> Reply {
        match &mut self.stations[usize::from(request.address())] {
            Some(module) if self.power => module.hear(request),
            _ => Reply::Silence,
        }
    }
}

/// A rack that keeps nothing but the words and takes requests as telegrams.
pub struct ImageRack {
    words: Image,
}

impl ImageRack {
    fn receive(&mut self, telegram: u32) -> Reply {
        let Ok(request) = Request::decode(telegram) else {
            return Reply::Silence;
        };
        let address = usize::from(request.address());
        match station_in(&self.words, address) {
            Some(mut module) if self.power_is_up() => {
                let reply = module.hear(request);
                self.words[address] = image::word_of(Some(module));
                reply
            }
            _ => Reply::Silence,
        }
    }
}

impl Line for ImageRack {
    fn open(words: &Image) -> ImageRack {
        ImageRack { words: *words }
    }

    fn image(&self) -> Image {
        self.words
    }

    fn power_is_up(&self) -> bool {
        power_in(&self.words)
    }

    fn carry(&mut self, request: Request) -> Reply {
        self.receive(request.encode())
    }
}

/// Repeats a request once after a disturbed reply.
pub struct Repeater<L> {
    below: L,
}

impl<L: Line> Line for Repeater<L> {
    fn open(words: &Image) -> Repeater<L> {
        Repeater {
            below: L::open(words),
        }
    }

    /// The words between two calls are those of the rack at the bottom, with
    /// its own disturbance counts and not the halved ones.
    fn image(&self) -> Image {
        self.below.image()
    }

    fn power_is_up(&self) -> bool {
        self.below.power_is_up()
    }

    fn carry(&mut self, request: Request) -> Reply {
        match self.below.carry(request) {
            Reply::Disturbed => self.below.carry(request),
            other => other,
        }
    }
}

fn station_in(words: &Image, address: usize) -> Station {
    image::station_of(words[address]).flatten()
}

fn power_in(words: &Image) -> bool {
    words[image::POWER] == image::POWER_UP
}

#[cfg(test)]
mod tests {
    use super::*;

    fn with_module(word: u32) -> Image {
        let mut words = [0; image::WORDS];
        words[3] = word;
        words[image::POWER] = image::POWER_UP;
        words
    }

    /// How many requests are disturbed before a reply comes.
    fn disturbances<L: Line>(words: &Image) -> usize {
        let mut line = L::open(words);
        (0..8)
            .take_while(|_| line.carry(Request::ReadIo(3)) == Reply::Disturbed)
            .count()
    }

    #[test]
    fn a_repeater_halves_the_disturbance_count() {
        let words = with_module(0x4709_FF30);
        assert_eq!(disturbances::<Bench>(&words), 3);
        assert_eq!(disturbances::<ImageRack>(&words), 3);
        assert_eq!(disturbances::<Repeater<Bench>>(&words), 1);
        assert_eq!(disturbances::<Repeater<Repeater<Bench>>>(&words), 0);
    }

    #[test]
    fn nothing_happens_without_power() {
        let mut words = with_module(0x4709_FF30);
        words[image::POWER] = image::POWER_DOWN;
        let mut bench = Bench::open(&words);
        let mut rack = ImageRack::open(&words);
        assert_eq!(bench.carry(Request::Reset(3)), Reply::Silence);
        assert_eq!(rack.carry(Request::Reset(3)), Reply::Silence);
        assert_eq!(bench.image(), words);
        assert_eq!(rack.image(), words);
    }

    #[test]
    fn both_racks_do_the_same() {
        let words = with_module(0x4709_FF13);
        let mut bench = Bench::open(&words);
        let mut rack = ImageRack::open(&words);
        for request in [
            Request::ReadIo(3),
            Request::WriteParameter(3, 5),
            Request::DataExchange(3, 6),
            Request::ReadId(4),
            Request::Reset(3),
        ] {
            assert_eq!(bench.carry(request), rack.carry(request));
            assert_eq!(bench.image(), rack.image());
        }
    }

    #[test]
    fn a_word_that_is_no_request_is_met_with_silence() {
        let words = with_module(0x4709_FF00);
        let mut rack = ImageRack::open(&words);
        assert_eq!(rack.receive(441), Reply::Silence);
        assert_eq!(rack.image(), words);
    }
}
