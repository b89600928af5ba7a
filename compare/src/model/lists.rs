//! Lists of addresses: LDS, LAS and LPS (RECORD.md).

use super::numbers::Address;

/// Bit a is one where address a is in the list.
#[derive(Clone, Copy, Debug, Default, PartialEq, Eq)]
pub struct List(u32);

impl List {
    pub fn bits(self) -> u32 {
        self.0
    }

    pub fn contains(self, address: Address) -> bool {
        self.0 >> address & 1 == 1
    }

    pub fn insert(&mut self, address: Address) {
        self.0 |= 1 << address;
    }

    pub fn remove(&mut self, address: Address) {
        self.0 &= !(1 << address);
    }

    /// Lowest first.
    pub fn addresses(self) -> impl Iterator<Item = Address> {
        let mut rest = self.0;
        std::iter::from_fn(move || {
            if rest == 0 {
                return None;
            }
            let lowest = rest.trailing_zeros() as Address;
            rest &= rest - 1;
            Some(lowest)
        })
    }

    /// The first address that is not in the list, from one upward, with 0
    /// following 31; none where the list is full.
    pub fn first_absent(self, from: Address) -> Option<Address> {
        (0..32)
            .map(|step| (from + step) % 32)
            .find(|address| !self.contains(*address))
    }
}

#[cfg(test)]
mod tests {
    use super::*;

    #[test]
    fn absent_addresses_are_found_round_the_end() {
        let mut list = List::default();
        assert_eq!(list.first_absent(31), Some(31));
        list.insert(31);
        assert_eq!(list.first_absent(31), Some(0));
        list.insert(0);
        list.insert(1);
        assert_eq!(list.first_absent(31), Some(2));
        assert_eq!(list.addresses().collect::<Vec<_>>(), [0, 1, 31]);
        list.remove(0);
        assert_eq!(list.first_absent(31), Some(0));
        assert_eq!(list.bits(), 0x8000_0002);
    }
}
