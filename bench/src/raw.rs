//! The search alone, over clauses that the caller has made: libsolve.a's call.
#![allow(unsafe_code)]

mod foreign {
    extern "C" {
        pub fn rulebook_search(
            clauses: *const i16,
            clauses_length: usize,
            values: *mut u8,
            values_length: usize,
            work: *mut u16,
            work_length: usize,
            budget: u32,
        ) -> u32;
    }
}

/// Numbers of working space that a search of so many variables and clauses is lent.
pub fn work(variables: usize, clauses: usize) -> usize {
    2 * variables + 1 + 3 * clauses
}

/// `rulebook_search`, with as many variables as values: 1 yes, 2 no, 3 stopped, 10 if something
/// doesn't fit.
pub fn search(clauses: &[i16], values: &mut [u8], work: &mut [u16], budget: u32) -> u32 {
    // SAFETY: each pointer and length are those of a slice; the mutable ones are apart.
    unsafe {
        foreign::rulebook_search(
            clauses.as_ptr(),
            clauses.len(),
            values.as_mut_ptr(),
            values.len(),
            work.as_mut_ptr(),
            work.len(),
            budget,
        )
    }
}

#[cfg(test)]
mod tests {
    use super::*;

    /// 01's clauses of M4, with budgets around its count, and a working space that is too short.
    #[test]
    fn the_call_answers() {
        let clauses = [1, 0, 0, -1, 2, 3];
        let mut space = vec![7; work(3, 2)];
        let mut values = [9; 3];
        assert_eq!(search(&clauses, &mut values, &mut space[1..], 2), 10);
        assert_eq!(values, [9; 3]);
        assert_eq!(search(&clauses, &mut values, &mut space, 1), 3);
        assert_eq!(values, [0; 3]);
        assert_eq!(search(&clauses, &mut values, &mut space, 2), 1);
        assert_eq!(values, [1, 1, 0]);
    }
}
