//! A set of numbers 0 to 255: letters of a monitor, or its threads.

#[derive(Clone, Copy, Debug, Default, PartialEq, Eq)]
pub struct Set([u64; 4]);

impl Set {
    pub const EMPTY: Set = Set([0; 4]);

    /// The set of one number.
    pub fn of(number: u8) -> Self {
        let mut set = Set::EMPTY;
        set.insert(number);
        set
    }

    pub fn insert(&mut self, number: u8) {
        self.0[usize::from(number / 64)] |= 1 << (number % 64);
    }

    pub fn remove(&mut self, number: u8) {
        self.0[usize::from(number / 64)] &= !(1 << (number % 64));
    }

    pub fn insert_all(&mut self, other: &Set) {
        for (mine, theirs) in self.0.iter_mut().zip(other.0) {
            *mine |= theirs;
        }
    }

    pub fn contains(&self, number: u8) -> bool {
        self.0[usize::from(number / 64)] >> (number % 64) & 1 == 1
    }

    pub fn is_empty(&self) -> bool {
        self.0 == [0; 4]
    }

    /// Whether the two sets share a number.
    pub fn meets(&self, other: &Set) -> bool {
        let mut shared = 0;
        for (mine, theirs) in self.0.iter().zip(other.0) {
            shared |= mine & theirs;
        }
        shared != 0
    }

    /// Its number, if it has just one.
    pub fn only(&self) -> Option<u8> {
        let mut rest = *self;
        rest.pop().filter(|_| rest.is_empty())
    }

    /// Takes the lowest number out.
    pub fn pop(&mut self) -> Option<u8> {
        for (index, bits) in self.0.iter_mut().enumerate() {
            if *bits != 0 {
                let low = bits.trailing_zeros();
                *bits &= *bits - 1;
                return Some((index as u32 * 64 + low) as u8);
            }
        }
        None
    }

    /// The numbers, lowest first.
    pub fn iter(&self) -> impl Iterator<Item = u8> {
        let mut rest = *self;
        std::iter::from_fn(move || rest.pop())
    }
}

#[cfg(test)]
mod tests {
    use super::*;

    #[test]
    fn numbers_come_out_in_order() {
        let mut set = Set::EMPTY;
        for number in [255, 0, 64, 63, 128, 64] {
            set.insert(number);
        }
        assert_eq!(set.iter().collect::<Vec<_>>(), [0, 63, 64, 128, 255]);
        assert!(set.meets(&Set::of(128)));
        assert!(!set.meets(&Set::of(129)));
    }

    #[test]
    fn a_number_is_removed_alone() {
        let mut set = Set::of(64);
        set.insert(65);
        set.insert(1);
        set.remove(65);
        set.remove(66);
        assert_eq!(set.iter().collect::<Vec<_>>(), [1, 64]);
    }

    #[test]
    fn a_number_is_found() {
        let mut set = Set::of(63);
        set.insert(255);
        let found: Vec<u8> = (0..=255).filter(|&number| set.contains(number)).collect();
        assert_eq!(found, [63, 255]);
    }

    #[test]
    fn one_number_alone_is_told() {
        for number in [0, 63, 64, 255] {
            let mut set = Set::of(number);
            assert_eq!(set.only(), Some(number));
            set.insert(128);
            assert_eq!(set.only(), None);
        }
        assert_eq!(Set::EMPTY.only(), None);
    }

    #[test]
    fn popping_empties_the_set() {
        let mut set = Set::of(200);
        set.insert_all(&Set::of(3));
        assert_eq!(
            (set.pop(), set.pop(), set.pop()),
            (Some(3), Some(200), None)
        );
        assert!(set.is_empty());
    }
}
