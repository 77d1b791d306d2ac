//! Evidence from outside: a word from hardware and a recorded message.

use reference::{Kind, code_word, construction, layout, placed, published, transform};

const HARDWARE_PAYLOAD: &str =
    "100010011001100000000000000000001000000111011101000000000000000000111000100101";

#[test]
fn hardware_word_is_a_code_word() {
    let code = published::hardware_layout();
    assert_eq!((code.length(), code.kind), (128, Kind::Shortening));

    let u = transform::transform(&published::hardware_code_word());
    let frozen: Vec<usize> = (0..128).filter(|i| !code.chosen.contains(i)).collect();
    assert_eq!(frozen.len(), 26);
    assert!(frozen.iter().all(|&i| u[i] == 0));

    let payload = published::hardware_payload().expect("the parity matches");
    let written: Vec<u8> = HARDWARE_PAYLOAD.bytes().map(|digit| digit - b'0').collect();
    assert_eq!(payload, written);
    assert_eq!(
        code_word(78, 108, 0, &payload),
        published::hardware_code_word()
    );
}

#[test]
fn altered_hardware_word_is_not_a_code_word() {
    let code = published::hardware_layout();
    for i in 0..128 {
        let mut word = published::hardware_code_word();
        word[i] ^= 1;
        assert_eq!(reference::payload_of(&code, &word, 0), None, "bit {i}");
    }
}

#[test]
fn recorded_message_holds_its_three_weakest_bits() {
    // A decoder for DCI size 35 read this message and one for 34 did not, so of the information
    // positions the two least reliable hold 0 and the next one 1.
    let mut weakest = layout(37, 432).expect("an accepted pair").chosen;
    weakest.sort_unstable_by_key(|&position| construction::rank(position));
    let u = placed(37, 432, published::SI_RNTI, &published::recorded_payload());
    assert_eq!(
        weakest[..3].iter().map(|&i| u[i]).collect::<Vec<_>>(),
        [0, 0, 1]
    );
}
