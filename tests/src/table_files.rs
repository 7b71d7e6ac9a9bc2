//! The table files that `plan` writes and `audit` reads: values as 32-bit and picks as 16-bit
//! numbers, least byte first, one entry a state.

/// The bytes of a values table.
pub fn values_bytes(values: &[u32]) -> Vec<u8> {
    values.iter().flat_map(|value| value.to_le_bytes()).collect()
}

/// The bytes of a picks table.
pub fn picks_bytes(picks: &[u16]) -> Vec<u8> {
    picks.iter().flat_map(|pick| pick.to_le_bytes()).collect()
}

/// The entries of a values file: "as many entries as fit whole".
pub fn values_of(bytes: &[u8]) -> Vec<u32> {
    bytes.chunks_exact(4).map(|b| u32::from_le_bytes([b[0], b[1], b[2], b[3]])).collect()
}

/// The entries of a picks file, in the same way.
pub fn picks_of(bytes: &[u8]) -> Vec<u16> {
    bytes.chunks_exact(2).map(|b| u16::from_le_bytes([b[0], b[1]])).collect()
}

#[cfg(test)]
mod tests {
    use super::*;

    #[test]
    fn entries_have_the_least_byte_first() {
        assert_eq!(values_bytes(&[0x0403_0201, 5]), [1, 2, 3, 4, 5, 0, 0, 0]);
        assert_eq!(picks_bytes(&[0x0201, 65_535]), [1, 2, 255, 255]);
    }

    #[test]
    fn part_of_an_entry_is_none() {
        assert_eq!(values_of(&[1, 0, 0, 0, 9, 9, 9]), [1]);
        assert_eq!(picks_of(&[1, 0, 9]), [1]);
        assert!(values_of(&[1, 2, 3]).is_empty() && picks_of(&[]).is_empty());
    }
}
