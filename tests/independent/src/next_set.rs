//! The search by which a planner's sweeps pass over marks that aren't set.

/// The least place at or after the start whose byte isn't 0, or the length of the bytes if there is none.
pub fn next_set(bytes: &[u8], start: usize) -> usize {
    let mut places = start..bytes.len();
    places
        .find(|&place| bytes[place] != 0)
        .unwrap_or(bytes.len())
}

#[cfg(test)]
mod tests {
    use super::*;

    #[test]
    fn from_set_byte_to_set_byte() {
        let bytes = [0, 0, 3, 0, 128, 0];
        let expected = [2, 2, 2, 4, 4, 6];
        for (start, expected) in expected.into_iter().enumerate() {
            assert_eq!(next_set(&bytes, start), expected, "from {start}");
        }
        // There is nothing at or after these.
        for start in [6, 7, usize::MAX] {
            assert_eq!(next_set(&bytes, start), 6);
        }
    }

    #[test]
    fn nothing_is_set() {
        assert_eq!(next_set(&[], 0), 0);
        assert_eq!(next_set(&[], 1), 0);
        assert_eq!(next_set(&[0; 20], 0), 20);
        assert_eq!(next_set(&[0; 20], 19), 20);
        assert_eq!(next_set(&[255, 0, 0], 1), 3);
    }
}
