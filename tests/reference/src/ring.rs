//! The set of masters of document 01, and the search for NS and PS in it.

/// Station addresses are 0..126.
pub const ADDRESSES: u8 = 127;

#[derive(Clone, PartialEq)]
pub struct Ring([bool; ADDRESSES as usize]);

impl Ring {
    pub fn of(masters: &[u8]) -> Ring {
        let mut ring = Ring([false; ADDRESSES as usize]);
        masters.iter().for_each(|&address| ring.enter(address));
        ring
    }

    pub fn contains(&self, address: u8) -> bool {
        self.0[usize::from(address)]
    }

    pub fn enter(&mut self, address: u8) {
        self.0[usize::from(address)] = true;
    }

    pub fn leave(&mut self, address: u8) {
        self.0[usize::from(address)] = false;
    }

    /// The masters in ascending order.
    pub fn masters(&self) -> Vec<u8> {
        (0..ADDRESSES).filter(|&address| self.contains(address)).collect()
    }

    /// NS of a master: one address after another, upward, past 126 to 0; itself if it is alone.
    pub fn next(&self, address: u8) -> u8 {
        let upward = (address + 1..ADDRESSES).chain(0..=address);
        self.first_of(upward)
    }

    /// PS of a master: likewise downward.
    pub fn previous(&self, address: u8) -> u8 {
        let downward = (0..address).rev().chain((address..ADDRESSES).rev());
        self.first_of(downward)
    }

    fn first_of(&self, mut addresses: impl Iterator<Item = u8>) -> u8 {
        addresses.find(|&address| self.contains(address)).expect("a master is in its own ring")
    }
}

#[cfg(test)]
mod tests {
    use super::*;

    #[test]
    fn next_and_previous() {
        let ring = Ring::of(&[2, 5, 126]);
        assert_eq!((ring.next(2), ring.next(5), ring.next(126)), (5, 126, 2));
        assert_eq!((ring.previous(2), ring.previous(5), ring.previous(126)), (126, 2, 5));
        let alone = Ring::of(&[0]);
        assert_eq!((alone.next(0), alone.previous(0)), (0, 0));
        let ends = Ring::of(&[0, 126]);
        assert_eq!((ends.next(126), ends.previous(0)), (0, 126));
    }
}
