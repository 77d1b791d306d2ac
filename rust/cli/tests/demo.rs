//! The demonstration runs to its end, the search in it finds what it says, and the noise is counted.

use std::process::Command;

#[test]
fn the_handset_finds_its_own_message_and_the_one_to_all() {
    let output = Command::new(env!("CARGO_BIN_EXE_demo")).output();
    let output = output.expect("the demonstration can be run");
    let said = String::from_utf8(output.stdout).expect("text");
    assert!(output.status.success(), "{said}");
    for line in [
        "     +0 dB    67 of 432    0, payload 5400a00000, noise count 67    1000 of 1000",
        "    -12 dB   157 of 432    7, the parity does not match                0 of 1000",
        "   2  CCEs 28-31   50 bits, RNTI 4601, n_RNTI 4601: the handset's",
        "   numbers  first CCE 28, level 4, 50 bits, RNTI 4601, n_RNTI 4601",
        "   lay in   CCEs 28-31, soft values 3024-3455 of the region",
        "   noise    count 63, of 432 soft values",
        "   numbers  first CCE 0, level 8, 37 bits, RNTI ffff, n_RNTI 0000",
        "   lay in   CCEs 0-7, soft values 0-863 of the region",
        "   noise    count 123, of 864 soft values",
        "   read with n_RNTI 1234     7: decoding ran, and the parity does not match",
        "   589 pairs of size and length: each gave 0, its payload and the noise count 0",
    ] {
        assert!(said.lines().any(|other| other == line), "{line}: {said}");
    }
}
