//! The numbers that the calls give, and what they say of a command line.

use speltfeather::Refusal;

/// A number with its names and its meaning in coding, decoding and searching.
pub struct Answer {
    pub number: u8,
    pub c: &'static str,
    pub rust: &'static str,
    pub meaning: &'static str,
}

/// In the order in which they are tested.
pub const ANSWERS: [Answer; 9] = [
    Answer {
        number: 0,
        c: "SPELT_DONE",
        rust: "Ok",
        meaning: "done: the output holds E bits (coding) or A bits (decoding); searching: its first A \
                  bytes, and the candidate is named; decoding and searching: the noise count as well",
    },
    Answer {
        number: 1,
        c: "SPELT_PAYLOAD_SIZE",
        rust: "Refusal::PayloadSize",
        meaning: "the payload size A is outside 12..140",
    },
    Answer {
        number: 2,
        c: "SPELT_CODED_LENGTH",
        rust: "Refusal::CodedLength",
        meaning: "the coded length E is not among 108, 216, 432, 864, 1728",
    },
    Answer {
        number: 3,
        c: "SPELT_TOO_MANY_BITS",
        rust: "Refusal::TooManyBits",
        meaning: "A + 24 is more than E",
    },
    Answer {
        number: 4,
        c: "SPELT_INPUT_LENGTH",
        rust: "Refusal::InputLength",
        meaning: "the input's length is not A (coding) or E (decoding); searching: the region is not \
                  0 to 64 whole CCEs, or there are more than 44 candidates",
    },
    Answer {
        number: 5,
        c: "SPELT_OUTPUT_LENGTH",
        rust: "Refusal::OutputLength",
        meaning: "the output's length is not E (coding), A (decoding) or 140 (searching)",
    },
    Answer {
        number: 6,
        c: "SPELT_BAD_ENTRY",
        rust: "Refusal::BadEntry(place)",
        meaning: "a payload byte above 1, or a soft value outside -127..127; carries the place, \
                  from 0, of the first",
    },
    Answer {
        number: 7,
        c: "SPELT_PARITY_MISMATCH",
        rust: "Refusal::ParityMismatch",
        meaning: "decoding ran, and the parity does not match: no message under these numbers",
    },
    Answer {
        number: 8,
        c: "SPELT_NO_CANDIDATE",
        rust: "Refusal::NoCandidate",
        meaning: "no candidate accepted",
    },
];

/// What a number means.
pub fn meaning(refusal: Refusal) -> &'static str {
    ANSWERS[usize::from(refusal.number())].meaning
}

/// What the refusal of sizes says of the options; none if it is not one of sizes. `length` is the
/// option that E came of, as it was given.
pub fn of_sizes(refusal: Refusal, a: u64, e: u64, length: &str) -> Option<String> {
    match refusal {
        Refusal::PayloadSize => Some(format!("--size {a}: expected 12 to 140")),
        Refusal::CodedLength => Some(format!("{length}: expected 108, 216, 432, 864 or 1728")),
        Refusal::TooManyBits => Some(format!(
            "--size {a} with {length}: expected a size of at most {}, since 24 parity bits are \
             added, or a greater length",
            e - 24
        )),
        _ => None,
    }
}

#[cfg(test)]
mod tests {
    use super::*;

    #[test]
    fn the_numbers_are_their_places() {
        for (i, answer) in ANSWERS.iter().enumerate() {
            assert_eq!(usize::from(answer.number), i);
        }
        assert!(meaning(Refusal::ParityMismatch).contains("parity"));
        assert!(meaning(Refusal::BadEntry(3)).contains("place"));
        assert!(meaning(Refusal::NoCandidate).contains("candidate"));
    }
}
