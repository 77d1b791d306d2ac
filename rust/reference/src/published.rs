//! What others published about coded messages, made ready to compare with: sources 001 and 002 of
//! docs/SOURCES.md.

use crate::construction::{Layout, layout};
use crate::payload_of;

/// The 128 code bits that a polar core in hardware gave for A = 78, E = 108 (source 002, Fig. 5);
/// bit 0 is d_0.
pub const HARDWARE_WORD: u128 = 0x00000bbfcd67f4e0184e2ccec13dc1d9;

/// The hardware word as a row of code bits.
pub fn hardware_code_word() -> Vec<u8> {
    (0..128).map(|i| (HARDWARE_WORD >> i & 1) as u8).collect()
}

/// The layout of the hardware word.
pub fn hardware_layout() -> Layout {
    layout(78, 108).expect("an accepted pair")
}

/// The payload that the hardware word codes with RNTI 0; none if it is no code word.
pub fn hardware_payload() -> Option<Vec<u8>> {
    payload_of(&hardware_layout(), &hardware_code_word(), 0)
}

/// The RNTI of system information.
pub const SI_RNTI: u16 = 0xFFFF;

/// The recorded DCI for SIB1 (source 001): A = 37, E = 432, RNTI FFFF.
pub fn recorded_payload() -> Vec<u8> {
    let fields = [(168, 9), (0, 4), (0, 1), (5, 5), (0, 2), (0, 1), (0, 15)];
    fields
        .into_iter()
        .flat_map(most_significant_first)
        .collect()
}

fn most_significant_first((value, width): (u32, u32)) -> impl Iterator<Item = u8> {
    (0..width).rev().map(move |i| (value >> i & 1) as u8)
}
