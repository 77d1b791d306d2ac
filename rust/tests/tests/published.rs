//! The library's output against published words (sources 001 and 002 of docs/SOURCES.md), and against
//! the cases of document 01 there that are not marked.

use conformance::searches::{N_RNTI, at};
use conformance::{Call, Decode, Encode, Random, Region, Search, sent_bits};
use reference::{Kind, Layout, construction, layout, noiseless, published, rate_matching};
use reference::{scrambling, selected};
use speltfeather::Numbers;

const RNTI: u16 = 0x4601;
const SEED: u64 = 0x732;
/// What the scrambling starts from, n_ID and n_RNTI: the words do not depend on it.
const STARTS: [(u16, u16); 6] = [
    (0, 0),
    (1, 0),
    (0x1234, RNTI),
    (0x8000, 1),
    (0, 0x8000),
    (0xFFFF, 0xFFFF),
];

/// The code word that sent bits came from; what was not sent is taken from `unsent`.
fn code_word_of(layout: &Layout, sent: &[u8], unsent: &[u8]) -> Vec<u8> {
    let mut d = unsent.to_vec();
    for (&i, &bit) in selected(layout).iter().zip(sent) {
        d[rate_matching::sub_block(i, layout.length())] = bit;
    }
    d
}

/// The sizes of the hardware's word, which was coded for RNTI 0.
fn hardware_numbers((n_id, n_rnti): (u16, u16)) -> Numbers {
    Numbers {
        a: 78,
        e: 108,
        rnti: 0,
        n_id,
        n_rnti,
    }
}

/// The numbers of the recorded message.
fn recorded_numbers((n_id, n_rnti): (u16, u16)) -> Numbers {
    Numbers {
        a: 37,
        e: 432,
        rnti: published::SI_RNTI,
        n_id,
        n_rnti,
    }
}

#[test]
fn hardware_word_is_sent() {
    let mut random = Random::new(SEED);
    let code = published::hardware_layout();
    let word = published::hardware_code_word();
    let payload = published::hardware_payload().expect("a code word");
    for start in STARTS {
        let numbers = hardware_numbers(start);
        let sent = sent_bits(numbers, &payload, &mut random);
        assert_eq!(sent, rate_matching::matched(&code, &word), "{numbers:?}");
        // Shortened code bits are 0, so the sent ones give the whole word.
        let whole = code_word_of(&code, &sent, &[0; 128]);
        assert_eq!(whole, word, "{numbers:?}");
    }
}

/// The word from hardware as it is sent, before it is scrambled.
fn hardware_bits() -> Vec<u8> {
    rate_matching::matched(
        &published::hardware_layout(),
        &published::hardware_code_word(),
    )
}

#[test]
fn hardware_word_is_read() {
    let mut random = Random::new(SEED);
    let sent = hardware_bits();
    for (n_id, n_rnti) in STARTS {
        let numbers = hardware_numbers((n_id, n_rnti));
        let soft = noiseless(&scrambling::scrambled(&sent, n_id, n_rnti), &[1; 108]);
        let outcome = Decode::fitting(numbers, soft, &mut random).compared();
        assert_eq!(outcome.number, 0, "{numbers:?}");
        let payload = published::hardware_payload();
        assert_eq!(Some(outcome.out), payload, "{numbers:?}");
    }
}

#[test]
fn recorded_message_is_read_through_errors() {
    let mut random = Random::new(SEED);
    let payload = published::recorded_payload();
    for start in STARTS {
        let numbers = recorded_numbers(start);
        let call = Encode::fitting(numbers, payload.clone(), &mut random);
        let mut soft = noiseless(&call.library().out, &[60; 432]);
        soft.iter_mut().step_by(9).for_each(|value| *value /= -3);
        soft.iter_mut()
            .skip(1)
            .step_by(5)
            .for_each(|value| *value = 0);
        let outcome = Decode::fitting(numbers, soft, &mut random).compared();
        assert_eq!((outcome.number, &outcome.out), (0, &payload), "{call:?}");
        // 48 were turned, and of these the 9 at 36, 81, .. then made 0.
        assert_eq!(outcome.noise, 48 - 9, "{call:?}");
    }
}

#[test]
fn hardware_word_is_found() {
    let mut random = Random::new(SEED);
    let sent = hardware_bits();
    let payload = published::hardware_payload().expect("a code word");
    for cce in 0..8 {
        let mut region = Region::noise(8, &mut random);
        let signs = scrambling::scrambled(&sent, region.n_id, N_RNTI as u16);
        let soft = noiseless(&signs, &[1; 108]);
        region.values[108 * cce..108 * (cce + 1)].copy_from_slice(&soft);
        let list: Vec<_> = (0..8).map(|first| at(first, 1, 78, 0)).collect();
        Search::of(&region, &list, &mut random).expect_message(cce, &payload);
    }
}

#[test]
fn recorded_message_is_coded() {
    let mut random = Random::new(SEED);
    let payload = published::recorded_payload();
    for start in STARTS {
        let numbers = recorded_numbers(start);
        let call = Encode::fitting(numbers, payload.clone(), &mut random);
        let outcome = call.library();
        assert_eq!(outcome.number, 0);
        assert_eq!(outcome, call.reference(), "{call:?}");
    }
    let mut weakest = layout(37, 432).expect("accepted").chosen;
    weakest.sort_unstable_by_key(|&position| construction::rank(position));
    let u = reference::placed(37, 432, published::SI_RNTI, &payload);
    assert_eq!([u[weakest[0]], u[weakest[1]], u[weakest[2]]], [0, 0, 1]);
}

/// Codes messages of several sizes, whose sent bits must be the 512 bits of y over and over, with y
/// the reference's code word in sub-block order. Gives how many bits of y each repeat has.
fn repeats(e: u64) -> Vec<usize> {
    let mut random = Random::new(SEED);
    let mut lengths = Vec::new();
    for a in [12, 40, 140] {
        let payload = random.bits(a);
        let numbers = Numbers {
            a: a as u64,
            e,
            rnti: RNTI,
            n_id: 77,
            n_rnti: RNTI,
        };
        let sent = sent_bits(numbers, &payload, &mut random);
        let (y, repeats) = sent.split_at(512);
        for piece in repeats.chunks(512) {
            assert_eq!(*piece, y[..piece.len()], "{numbers:?}");
        }
        lengths = repeats.chunks(512).map(<[u8]>::len).collect();
        let d = code_word_of(&layout(numbers.a, e).expect("accepted"), &sent, &[0; 512]);
        let expected = reference::code_word(numbers.a, e, numbers.rnti, &payload);
        assert_eq!(d, expected, "{numbers:?}");
    }
    lengths
}

#[test]
fn length_864_sends_the_first_352_twice() {
    assert_eq!(repeats(864), [352]);
}

#[test]
fn length_1728_sends_the_first_192_four_times_and_the_rest_three_times() {
    assert_eq!(repeats(1728), [512, 512, 192]);
}

/// Twenty random payloads and the bits that are sent for each.
fn messages(a: u64, e: u64) -> Vec<(Vec<u8>, Vec<u8>)> {
    let mut random = Random::new(SEED);
    let mut message = || {
        let payload = random.bits(a as usize);
        let numbers = Numbers {
            a,
            e,
            rnti: RNTI,
            n_id: 500,
            n_rnti: 0,
        };
        let sent = sent_bits(numbers, &payload, &mut random);
        (payload, sent)
    };
    (0..20).map(|_| message()).collect()
}

#[test]
fn size_78_at_108_has_128_code_bits() {
    let code = layout(78, 108).expect("accepted");
    assert_eq!((code.length(), code.kind), (128, Kind::Shortening));
    for (payload, sent) in messages(78, 108) {
        let d = code_word_of(&code, &sent, &[0; 128]);
        assert_eq!(reference::payload_of(&code, &d, RNTI), Some(payload));
    }
}

#[test]
fn size_37_at_432_has_512_code_bits() {
    let code = layout(37, 432).expect("accepted");
    assert_eq!((code.length(), code.kind), (512, Kind::Puncturing));
    for (payload, sent) in messages(37, 432) {
        let repeated_256 = sent[..176] == sent[256..];
        assert!(!repeated_256, "as if a code of 256 bits were repeated");
        let whole = reference::code_word(37, 432, RNTI, &payload);
        let d = code_word_of(&code, &sent, &whole);
        assert_eq!(reference::payload_of(&code, &d, RNTI), Some(payload));
    }
}
