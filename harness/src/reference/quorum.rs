//! Document 01's thresholds.

/// n/3 rounded up, less one; n from 1.
pub fn t0(n: u32) -> u32 {
    n.div_ceil(3) - 1
}

/// The seats that confirm.
pub fn k(n: u32) -> u32 {
    n - t0(n)
}

#[cfg(test)]
mod tests {
    use super::*;

    /// Document 01's marked cases, n: t0, k.
    #[test]
    fn marked_cases() {
        let marked = [(1, 0, 1), (2, 0, 2), (3, 0, 3), (4, 1, 3), (7, 2, 5), (10, 3, 7), (31, 10, 21), (32, 10, 22)];
        for (n, expected_t0, expected_k) in marked {
            assert_eq!((t0(n), k(n)), (expected_t0, expected_k), "n = {n}");
        }
    }
}
