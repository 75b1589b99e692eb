//! Makes a case small: parts of its text and of its trace are left out as long as it still fails.

use crate::Case;

/// A case that fails and no longer does if any one byte more of its text is left out, or one unit of its trace: so many bytes that stay together, 1 for a trace
/// and 9 for calls. The case given must fail.
pub fn shrink(mut case: Case, unit: usize, fails: impl Fn(&Case) -> bool) -> Case {
    loop {
        let before = case.text.len() + case.trace.len();
        let mut part = case.text.len().max(case.trace.len().div_ceil(unit));
        while part > 0 {
            leave_out(&mut case, part, |case| &mut case.text, &fails);
            leave_out(&mut case, part * unit, |case| &mut case.trace, &fails);
            part /= 2;
        }
        if case.text.len() + case.trace.len() == before {
            return case;
        }
    }
}

/// Leaves out each part of a length that is not needed, of the bytes that `of` names.
fn leave_out(case: &mut Case, part: usize, of: impl Fn(&mut Case) -> &mut Vec<u8>, fails: impl Fn(&Case) -> bool) {
    let mut at = 0;
    while at < of(case).len() {
        let mut smaller = case.clone();
        let bytes = of(&mut smaller);
        let end = (at + part).min(bytes.len());
        bytes.drain(at..end);
        if fails(&smaller) {
            *case = smaller;
        } else {
            at += part;
        }
    }
}

#[cfg(test)]
mod tests {
    use super::*;
    use crate::grow;
    use crate::random::Random;

    fn small(text: &[u8], trace: &[u8], fails: impl Fn(&Case) -> bool) -> Case {
        let case = Case { text: text.to_vec(), trace: trace.to_vec() };
        assert!(fails(&case));
        shrink(case, 1, fails)
    }

    fn count(bytes: &[u8], byte: u8) -> usize {
        bytes.iter().filter(|&&b| b == byte).count()
    }

    #[test]
    fn what_always_fails_becomes_empty() {
        assert_eq!(small(b"some text", &[1, 2, 3], |_| true), Case { text: vec![], trace: vec![] });
    }

    #[test]
    fn needed_bytes_of_both_stay_alone() {
        let case = small(b"aaaaxbbbbbycc", &[0, 7, 0, 0, 7, 7, 0, 7], |c| count(&c.text, b'x') > 0 && count(&c.text, b'y') > 0 && count(&c.trace, 7) >= 3);
        assert_eq!(case, Case { text: b"xy".to_vec(), trace: vec![7, 7, 7] });
    }

    /// What is not needed once another part has gone needs a second round.
    #[test]
    fn a_byte_that_another_holds_goes_too() {
        let held = |c: &Case| count(&c.text, b'x') > 0 && (count(&c.text, b'a') == 0 || count(&c.text, b'b') > 0 || count(&c.trace, 1) > 0);
        assert_eq!(small(b"baxaab", &[1, 1], held), Case { text: b"x".to_vec(), trace: vec![] });
        let first_behind_last = |c: &Case| c.text.first() == Some(&b'x') && (c.text.len() < 2 || c.text.last() != Some(&b'a') || count(&c.trace, 1) > 0);
        assert_eq!(small(b"xbbba", &[1], first_behind_last), Case { text: b"x".to_vec(), trace: vec![] });
    }

    #[test]
    fn a_length_is_kept_exactly() {
        let case = small(&[b' '; 1000], &[0; 77], |c| c.text.len() >= 5 && c.trace.len() >= 9);
        assert_eq!((case.text.len(), case.trace.len()), (5, 9));
    }

    /// Grown cases that are refused as misplaced: the smallest text that is, is the empty one.
    #[test]
    fn a_grown_case_becomes_the_smallest_of_its_kind() {
        let misplaced = |c: &Case| second::sheet(&c.text, &c.trace).starts_with(b"refused 3 ");
        let grown = (0..2000).map(|seed| grow::case(&mut Random::new(seed))).filter(misplaced).take(20);
        for case in grown {
            assert_eq!(shrink(case, 1, misplaced), Case { text: vec![], trace: vec![] });
        }
    }

    /// Only whole units are left out, each that is not needed.
    #[test]
    fn bytes_of_a_unit_stay_together() {
        let trace = [1, 2, 3].repeat(50);
        let case = Case { text: b"text".to_vec(), trace: [trace.clone(), vec![7, 2, 7], trace, vec![7, 2, 7]].concat() };
        let small = shrink(case, 3, |case| {
            assert!(case.trace.chunks(3).all(|unit| unit == [1, 2, 3] || unit == [7, 2, 7]));
            count(&case.trace, 7) >= 2 && case.trace.len() >= 9
        });
        assert_eq!((small.text.len(), small.trace.len(), count(&small.trace, 2)), (0, 9, 3));
        assert!(count(&small.trace, 7) >= 2);
    }
}
