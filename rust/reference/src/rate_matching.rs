//! Sub-block interleaver and bit selection (TS 38.212 5.4.1).

use crate::construction::{Kind, Layout};

/// Table 5.4.1.1-1, the sub-block order P.
pub const SUB_BLOCKS: [usize; 32] = [
    0, 1, 2, 4, 3, 5, 6, 7, 8, 16, 9, 17, 10, 18, 11, 19, //
    12, 20, 13, 21, 14, 22, 15, 23, 24, 25, 26, 28, 27, 29, 30, 31,
];

/// J(i): the code bit that y_i is, for a code of `length` bits.
pub fn sub_block(i: usize, length: usize) -> usize {
    SUB_BLOCKS[32 * i / length] * (length / 32) + i % (length / 32)
}

/// For each sent bit, the i of the y_i that it is.
pub fn selected(layout: &Layout) -> Vec<usize> {
    let length = layout.length();
    (0..layout.e)
        .map(|k| match layout.kind {
            Kind::Repetition => k % length,
            Kind::Puncturing => k + length - layout.e,
            Kind::Shortening => k,
        })
        .collect()
}

/// The sent bits of the code word `d`, before scrambling.
pub fn matched(layout: &Layout, d: &[u8]) -> Vec<u8> {
    selected(layout)
        .iter()
        .map(|&i| d[sub_block(i, layout.length())])
        .collect()
}

#[cfg(test)]
mod tests {
    use super::*;

    #[test]
    fn sub_blocks_are_a_permutation() {
        let mut blocks = SUB_BLOCKS;
        blocks.sort_unstable();
        assert!(blocks.into_iter().eq(0..32));
    }

    #[test]
    fn sub_block_moves_whole_blocks() {
        // N = 512: blocks of 16; block 3 is code block 4, block 9 is code block 16.
        assert_eq!(sub_block(3 * 16 + 5, 512), 4 * 16 + 5);
        assert_eq!(sub_block(9 * 16, 512), 16 * 16);
        assert_eq!(sub_block(511, 512), 511);
    }
}
