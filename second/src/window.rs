//! Limits at work: on how many of the last ticks were letters of a production
//! met?
//!
//! For each limit a watch keeps the list of ticks at which a letter that counts
//! was met. How many of them are in the window of a tick is counted anew at each
//! tick; as the list rises, it is enough to find where the window begins in it.

use crate::fit::Branch;
use crate::graph::Graph;
use crate::parse::Limit;
use crate::set::Set;

/// A limit of an opened text.
pub struct Window {
    /// On how many ticks of the window a letter that counts may be met.
    most: usize,
    /// How many ticks in a row the window has.
    length: u32,
    /// For each monitor, the letters that count: those opened through the
    /// limited production.
    letters: Vec<Set>,
}

impl Window {
    pub fn new(limit: Limit, monitors: &[Graph]) -> Self {
        let counted = |graph: &Graph| graph.opened_through(limit.production);
        Window {
            most: limit.most as usize,
            length: limit.window,
            letters: monitors.iter().map(counted).collect(),
        }
    }

    /// Whether a letter that counts was met at the tick after which these are
    /// the branches of the monitors. It is all the same how many were.
    pub fn is_met(&self, branches: &[Vec<Branch>]) -> bool {
        let mut monitors = self.letters.iter().zip(branches);
        monitors.any(|(letters, branches)| {
            let mut branches = branches.iter();
            branches.any(|branch| branch.letters().meets(letters))
        })
    }

    /// Whether the tick `now` is beyond the limit, from the ticks before it at
    /// which a letter that counts was met and whether one is met now.
    pub fn is_exceeded(&self, earlier: &[u32], now: u32, met: bool) -> bool {
        self.count(earlier, now) + usize::from(met) > self.most
    }

    /// How many of the ticks are in the window that ends with the tick `now`.
    fn count(&self, ticks: &[u32], now: u32) -> usize {
        let gone = ticks.partition_point(|&tick| tick + self.length <= now);
        ticks.len() - gone
    }
}

#[cfg(test)]
mod tests {
    use super::*;
    use crate::parse::parse;

    fn window(most: usize, length: u32) -> Window {
        Window {
            most,
            length,
            letters: Vec::new(),
        }
    }

    #[test]
    fn a_window_is_a_tick_and_those_before_it() {
        let ticks = [0, 3, 4, 7];
        let count = |length, now| window(0, length).count(&ticks, now);
        // In a window of one tick none is earlier.
        assert_eq!([8, 9].map(|now| count(1, now)), [0, 0]);
        assert_eq!([8, 9].map(|now| count(2, now)), [1, 0]);
        assert_eq!([8, 10, 11, 15].map(|now| count(8, now)), [3, 3, 2, 0]);
        // Before the window is full, all there are.
        assert_eq!(count(1_024, 8), 4);
        assert_eq!([1_023, 1_024].map(|now| count(1_024, now)), [4, 3]);
    }

    #[test]
    fn a_limit_allows_as_many_as_it_says() {
        let two = window(2, 5);
        assert!(!two.is_exceeded(&[], 0, true));
        assert!(!two.is_exceeded(&[0], 1, true));
        assert!(two.is_exceeded(&[0, 1], 2, true));
        assert!(two.is_exceeded(&[0, 1], 4, true));
        assert!(!two.is_exceeded(&[0, 1], 4, false));
        assert!(!two.is_exceeded(&[0, 1], 5, true));
        assert!(window(0, 1).is_exceeded(&[], 0, true));
        assert!(!window(0, 1).is_exceeded(&[], 0, false));
    }

    #[test]
    fn letters_are_counted_by_the_names_they_are_opened_through() {
        let text = "input a; input b; q -> a; p -> q; r -> (p); other -> a; \
                    m -> a, q, p || !a, r, p, other; \
                    limit q to 0 in 1; limit p to 0 in 1; limit r to 0 in 1; limit other to 0 in 1; \
                    monitor m, p, q;";
        let parsed = parse(text.as_bytes()).ok().unwrap();
        let open = |&monitor| Graph::open(&parsed.exprs, monitor);
        let graphs: Vec<Graph> = parsed.monitors.iter().map(open).collect();
        let counted = |limit: &Limit| -> Vec<Vec<u8>> {
            let window = Window::new(*limit, &graphs);
            let letters = window.letters.iter();
            letters.map(|letters| letters.iter().collect()).collect()
        };
        let counted: Vec<_> = parsed.limits.iter().map(counted).collect();
        // Letters of m: a 0, q 1, p 2, !a 3, r 4, p 5, other 6.
        assert_eq!(counted[0], [vec![1, 2, 4, 5], vec![0], vec![0]]);
        assert_eq!(counted[1], [vec![2, 4, 5], vec![0], vec![]]);
        assert_eq!(counted[2], [vec![4], vec![], vec![]]);
        assert_eq!(counted[3], [vec![6], vec![], vec![]]);
    }
}
