//! Sets of seats as masks: seat s is the bit of worth 2 to the power s.

pub fn mask(seats: &[u32]) -> u32 {
    seats.iter().map(|seat| 1 << seat).fold(0, |mask, bit| mask | bit)
}

/// The seats of a mask, rising.
pub fn list(mask: u32) -> Vec<u32> {
    (0..32).filter(|&seat| contains(mask, seat)).collect()
}

pub fn contains(mask: u32, seat: u32) -> bool {
    mask >> seat & 1 == 1
}

pub fn size(mask: u32) -> u32 {
    list(mask).len() as u32
}

#[cfg(test)]
mod tests {
    use super::*;

    #[test]
    fn both_ways() {
        assert_eq!((list(0b1011), mask(&[3, 0, 1])), (vec![0, 1, 3], 0b1011));
        assert_eq!((list(1 << 31), mask(&[31])), (vec![31], 1 << 31));
        assert_eq!((size(0), size(u32::MAX), mask(&list(u32::MAX))), (0, 32, u32::MAX));
    }
}
