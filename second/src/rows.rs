//! Rows of a monitor's table that are touched at a tick: a set of rows asked
//! and a set of rows left.

/// The number of a row within its monitor.
pub type RowNo = usize;

/// Both sets in one: a row has a bit for being asked and, next to it, one for
/// being left. Bits behind the last word do not stand.
#[derive(Clone, Debug, Default, PartialEq, Eq)]
pub struct Touched(Vec<u64>);

impl Touched {
    /// Has a row asked.
    pub fn ask(&mut self, row: RowNo) {
        self.insert(2 * row);
    }

    /// Has a row left.
    pub fn leave(&mut self, row: RowNo) {
        self.insert(2 * row + 1);
    }

    fn insert(&mut self, bit: usize) {
        self.make_room(bit / 64 + 1);
        self.0[bit / 64] |= 1 << (bit % 64);
    }

    pub fn insert_all(&mut self, other: &Touched) {
        self.make_room(other.0.len());
        for (mine, theirs) in self.0.iter_mut().zip(&other.0) {
            *mine |= theirs;
        }
    }

    fn make_room(&mut self, words: usize) {
        if self.0.len() < words {
            self.0.resize(words, 0);
        }
    }

    pub fn clear(&mut self) {
        self.0.clear();
    }

    /// How many rows are asked and how many are left, added up.
    pub fn count(&self) -> u32 {
        self.0.iter().map(|bits| bits.count_ones()).sum()
    }
}

#[cfg(test)]
mod tests {
    use super::*;

    #[test]
    fn a_row_counts_once_as_asked_and_once_as_left() {
        let mut touched = Touched::default();
        assert_eq!(touched.count(), 0);
        for row in [0, 31, 32, 765, 32] {
            touched.ask(row);
        }
        assert_eq!(touched.count(), 4);
        for row in [1, 32, 700] {
            touched.leave(row);
            touched.leave(row);
        }
        assert_eq!(touched.count(), 7);
    }

    #[test]
    fn sets_of_different_length_are_joined() {
        let (mut short, mut long) = (Touched::default(), Touched::default());
        short.ask(3);
        short.leave(4);
        long.leave(4);
        long.ask(500);
        let mut joined = short.clone();
        joined.insert_all(&long);
        assert_eq!(joined.count(), 3);
        long.insert_all(&short);
        assert_eq!(long.count(), 3);
    }

    #[test]
    fn a_cleared_set_is_empty_and_can_be_filled_again() {
        let mut touched = Touched::default();
        touched.ask(100);
        touched.clear();
        assert_eq!(touched.count(), 0);
        touched.leave(200);
        assert_eq!(touched.count(), 1);
    }
}
