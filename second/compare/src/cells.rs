//! Cells: numbers of 64 bits, low byte first.

/// `drive` looks at no cell after this many.
pub const MOST_CELLS: usize = 65_536;

/// The number of bytes of one cell.
pub const CELL_BYTES: usize = 8;

pub fn to_bytes(cells: &[u64]) -> Vec<u8> {
    cells.iter().flat_map(|cell| cell.to_le_bytes()).collect()
}

/// The cells that are there in full. A part of a cell at the end is left out.
pub fn whole_cells(bytes: &[u8]) -> Vec<u64> {
    bytes
        .chunks_exact(CELL_BYTES)
        .map(|chunk| u64::from_le_bytes(chunk.try_into().expect("a chunk has eight bytes")))
        .collect()
}

/// What docs/INTERFACES.md calls "taken modulo 2^32".
pub fn modulo_2_to_32(cell: u64) -> u32 {
    (cell % (1 << 32)) as u32
}

/// What docs/INTERFACES.md says as "above 65 535 count as 65 535".
pub fn at_most_65_535(cell: u64) -> u16 {
    u16::try_from(cell).unwrap_or(u16::MAX)
}

#[cfg(test)]
mod tests {
    use super::*;

    #[test]
    fn the_low_byte_comes_first() {
        assert_eq!(to_bytes(&[0x0102]), [2, 1, 0, 0, 0, 0, 0, 0]);
    }

    #[test]
    fn a_part_of_a_cell_is_left_out() {
        let mut bytes = to_bytes(&[5, u64::MAX]);
        assert_eq!(whole_cells(&bytes), [5, u64::MAX]);
        bytes.pop();
        assert_eq!(whole_cells(&bytes), [5]);
    }

    #[test]
    fn only_the_low_half_is_kept() {
        assert_eq!(modulo_2_to_32((7 << 32) + 9), 9);
    }

    #[test]
    fn what_is_above_65_535_counts_as_65_535() {
        let cells = [0, 9, 65_534, 65_535, 65_536, (1 << 32) + 9, u64::MAX];
        let counted = [0, 9, 65_534, 65_535, 65_535, 65_535, 65_535];
        assert_eq!(cells.map(at_most_65_535), counted);
    }
}
