//! Searches that are put to both programs: regions with messages in them, and lists of candidates.

use crate::rows::strengths;
use crate::trials::coded;
use crate::{Call, Random, library};
use channel::{MOST, received};
use reference::searching::{BUFFER, CCE, NUMBERS, Place};
use reference::{Answer, noiseless};
use speltfeather::{Candidate, Numbers, decode};
use std::ops::Range;
use std::ptr;

/// What is added to a number that 8, 16 or 31 of its bits would be taken for, or, where it is
/// multiplied by 108, that a product of 32 bits would be.
pub const FAR: [u32; 6] = [1 << 8, 1 << 16, 1 << 30, 1 << 31, 3 << 30, 65535 << 16];

/// The numbers that a candidate is read under.
pub fn numbers_of(candidate: &Candidate, n_id: u16) -> Numbers {
    Numbers {
        a: candidate.a.into(),
        e: CCE as u64 * u64::from(candidate.level),
        rnti: candidate.rnti as u16,
        n_id,
        n_rnti: candidate.n_rnti as u16,
    }
}

/// A list as numbers, five for each candidate.
pub fn flat(list: &[Candidate]) -> Vec<u32> {
    let numbers = |c: &Candidate| [c.first_cce, c.level, c.a, c.rnti, c.n_rnti];
    list.iter().flat_map(numbers).collect()
}

/// The candidate of five numbers.
pub fn candidate(numbers: [u32; NUMBERS]) -> Candidate {
    let [first_cce, level, a, rnti, n_rnti] = numbers;
    Candidate {
        first_cce,
        level,
        a,
        rnti,
        n_rnti,
    }
}

/// The candidates that a list of numbers has whole.
pub fn candidates(list: &[u32]) -> Vec<Candidate> {
    let whole = list.chunks_exact(NUMBERS);
    let five = |numbers: &[u32]| numbers.try_into().expect("five numbers");
    whole.map(|numbers| candidate(five(numbers))).collect()
}

/// Where the values of a candidate stand in its region.
pub fn span(candidate: &Candidate) -> Range<usize> {
    let [start, length] = [candidate.first_cce, candidate.level].map(|cces| CCE * cces as usize);
    start..start + length
}

/// The soft values of a region, all scrambled with one identity.
#[derive(Clone, Debug)]
pub struct Region {
    pub n_id: u16,
    pub values: Vec<i32>,
}

impl Region {
    /// So many CCEs of noise.
    pub fn noise(cces: usize, random: &mut Random) -> Self {
        Self {
            n_id: random.u16(),
            values: (0..CCE * cces)
                .map(|_| random.between(-MOST, MOST))
                .collect(),
        }
    }

    /// The values of a candidate that lies in the region.
    pub fn stretch(&self, candidate: &Candidate) -> &[i32] {
        &self.values[span(candidate)]
    }

    /// Puts values where the candidate says.
    fn put(&mut self, candidate: &Candidate, values: &[i32]) {
        self.values[span(candidate)].copy_from_slice(values);
    }

    /// Puts a message where the candidate says, whether it may lie there or not, with right signs and
    /// any strengths; gives its payload.
    pub fn send(&mut self, candidate: &Candidate, random: &mut Random) -> Vec<u8> {
        let numbers = numbers_of(candidate, self.n_id);
        let payload = random.bits(numbers.a as usize);
        let strengths = strengths(numbers.e as usize, random);
        self.put(
            candidate,
            &noiseless(&coded(&numbers, &payload), &strengths),
        );
        payload
    }

    /// Puts a message there with noise, the amplitude sent being 1.
    pub fn send_in_noise(&mut self, candidate: &Candidate, noise: f64, random: &mut Random) {
        let numbers = numbers_of(candidate, self.n_id);
        let payload = random.bits(numbers.a as usize);
        let values = received(&coded(&numbers, &payload), noise, 30.0, random);
        self.put(candidate, &values);
    }
}

/// A region to be searched with a list of candidates. Only the fronts of both are handed over, so
/// that what stands behind could be found by a search that reads too far.
#[derive(Clone, Debug)]
pub struct Search {
    pub n_id: u16,
    pub region: Vec<i32>,
    pub region_len: usize,
    pub list: Vec<u32>,
    pub list_len: usize,
    pub out: Vec<u8>,
}

impl Search {
    /// A search of the whole region with the whole list, with an output that fits and holds random
    /// bytes.
    pub fn of(region: &Region, list: &[Candidate], random: &mut Random) -> Self {
        Self {
            n_id: region.n_id,
            region: region.values.clone(),
            region_len: region.values.len(),
            list: flat(list),
            list_len: NUMBERS * list.len(),
            out: random.bytes(BUFFER),
        }
    }

    fn region(&self) -> &[i32] {
        &self.region[..self.region_len]
    }

    fn list(&self) -> &[u32] {
        &self.list[..self.list_len]
    }

    /// Asserts that both name this candidate, without noise, and give this payload, and that the rest
    /// of the buffer is as it was.
    pub fn expect_message(&self, candidate: usize, payload: &[u8]) {
        self.expect_noisy(candidate, payload, 0);
    }

    /// The same with a noise count.
    pub fn expect_noisy(&self, candidate: usize, payload: &[u8], noise: usize) {
        let outcome = self.compared();
        let found = (outcome.number, outcome.place, outcome.noise);
        assert_eq!(found, (0, candidate, noise), "{self:?}");
        let (front, rest) = outcome.out.split_at(payload.len());
        assert_eq!(front, payload, "{self:?}");
        assert_eq!(rest, &self.out[payload.len()..], "{self:?}");
    }
}

impl Call for Search {
    fn out(&self) -> &[u8] {
        &self.out
    }

    fn ask_library(&self, out: &mut [u8]) -> Answer {
        library::search(self.n_id, self.region(), self.list(), out)
    }

    fn ask_reference(&self, out: &mut [u8]) -> Answer {
        let (answer, stretch) = reference::search(self.n_id, self.region(), self.list(), out);
        let is_own = match answer {
            (0, i, _) => ptr::eq(stretch, &self.region[span(&candidates(self.list())[i])]),
            _ => stretch.is_empty(),
        };
        assert!(is_own, "{self:?}");
        answer
    }
}

/// The n_RNTI of candidates for which none is said: unlike their RNTIs, and with its top bit.
pub const N_RNTI: u32 = 0xB5C2;

/// A candidate.
pub fn at(first_cce: u32, level: u32, a: u32, rnti: u32) -> Candidate {
    candidate([first_cce, level, a, rnti, N_RNTI])
}

/// A candidate at a place, with any size that it has room for, any RNTI and any n_RNTI.
pub fn any_at(place: Place, random: &mut Random) -> Candidate {
    let most = if place.level == 1 { 84 } else { 140 };
    let a = random.between(12, most) as u32;
    let [first_cce, level] = [place.first_cce, place.level].map(|n| n as u32);
    let [rnti, n_rnti] = [(); 2].map(|()| random.u16().into());
    candidate([first_cce, level, a, rnti, n_rnti])
}

/// A candidate of this level at CCE 0.
pub fn in_front(level: usize, random: &mut Random) -> Candidate {
    let first_cce = 0;
    any_at(Place { first_cce, level }, random)
}

/// So many CCEs of noise with the candidate's message, and its payload.
pub fn with_message(cces: usize, candidate: &Candidate, random: &mut Random) -> (Region, Vec<u8>) {
    let mut region = Region::noise(cces, random);
    let payload = region.send(candidate, random);
    (region, payload)
}

/// The noise count that the library's decoder gives for the candidate's own row; none if it does not
/// accept it.
pub fn decoded_noise(region: &Region, candidate: &Candidate) -> Option<usize> {
    let mut out = vec![0; candidate.a as usize];
    let numbers = numbers_of(candidate, region.n_id);
    let reading = decode(&numbers, region.stretch(candidate), &mut out);
    reading.ok().map(|reading| reading.noise)
}

/// Whether the library's decoder accepts the candidate's own row.
pub fn is_decoded(region: &Region, candidate: &Candidate) -> bool {
    decoded_noise(region, candidate).is_some()
}

/// Each of `others` does not decode, alone or before the candidate that does.
pub fn assert_passed_over(
    region: &Region,
    candidate: Candidate,
    payload: &[u8],
    others: &[Candidate],
    random: &mut Random,
) {
    Search::of(region, &[candidate], random).expect_message(0, payload);
    for &other in others {
        Search::of(region, &[other], random).expect(8, 0);
        Search::of(region, &[other, candidate], random).expect_message(1, payload);
    }
}
