//! Sets of numbers as words: bit n stands for number n.

/// The members, lowest first.
pub fn members(set: u64) -> impl Iterator<Item = usize> {
    let mut left = set;
    std::iter::from_fn(move || {
        if left == 0 {
            return None;
        }
        let lowest = left.trailing_zeros() as usize;
        left &= left - 1;
        Some(lowest)
    })
}

/// All numbers below `count`, which is at most 64.
pub fn below(count: usize) -> u64 {
    match count {
        64 => u64::MAX,
        _ => (1 << count) - 1,
    }
}

pub fn holds(set: u64, number: usize) -> bool {
    number < 64 && set >> number & 1 == 1
}

#[cfg(test)]
mod tests {
    use super::*;

    #[test]
    fn the_ends_of_a_word() {
        assert_eq!(members(1 | 1 << 63).collect::<Vec<_>>(), [0, 63]);
        assert_eq!(below(0), 0);
        assert_eq!(below(64), u64::MAX);
        assert!(holds(1 << 63, 63) && !holds(u64::MAX, 64));
    }
}
