//! The search of a handset's candidates (document 02): every place where a message may lie is written
//! down first, and a candidate is looked up among them.

use crate::{Answer, Numbers, decode};

/// The soft values of a CCE.
pub const CCE: usize = 108;
/// The most CCEs of a region.
pub const CCES: usize = 64;
/// The most candidates of a list.
pub const CANDIDATES: usize = 44;
/// The bytes of the payload buffer.
pub const BUFFER: usize = 140;
/// The numbers of a candidate: first CCE, level, A, RNTI, n_RNTI.
pub const NUMBERS: usize = 5;
/// The aggregation levels.
pub const LEVELS: [usize; 5] = [1, 2, 4, 8, 16];

/// A place in a region: so many CCEs from one on.
#[derive(Clone, Copy, Debug, PartialEq, Eq)]
pub struct Place {
    pub first_cce: usize,
    pub level: usize,
}

/// All places of a region of so many CCEs where a message may lie: for each level as many of its size
/// as there is room for, one behind the other.
pub fn places(cces: usize) -> Vec<Place> {
    let of_level = |level| {
        let firsts = (0..cces / level).map(move |k| k * level);
        firsts.map(move |first_cce| Place { first_cce, level })
    };
    LEVELS.into_iter().flat_map(of_level).collect()
}

/// What a candidate that decodes gives.
struct Read<'a> {
    stretch: &'a [i32],
    payload: Vec<u8>,
    noise: usize,
}

/// Reads a candidate's own stretch of the region; none if it does not decode.
fn read<'a>(n_id: u16, region: &'a [i32], candidate: &[u32], places: &[Place]) -> Option<Read<'a>> {
    let [first_cce, level, a, rnti, n_rnti] = *candidate else {
        panic!("five numbers to a candidate");
    };
    let here = |place: &&Place| {
        place.first_cce as u64 == u64::from(first_cce) && place.level as u64 == u64::from(level)
    };
    let Place { first_cce, level } = *places.iter().find(here)?;
    let stretch = &region[first_cce * CCE..(first_cce + level) * CCE];
    let numbers = Numbers {
        a: a.into(),
        e: stretch.len() as u64,
        rnti: u16::try_from(rnti).ok()?,
        n_id,
        n_rnti: u16::try_from(n_rnti).ok()?,
    };
    // Above 140, A itself is refused.
    let mut payload = vec![0; BUFFER.min(a as usize)];
    let (number, _, noise) = decode(&numbers, stretch, &mut payload);
    (number == 0).then_some(Read {
        stretch,
        payload,
        noise,
    })
}

/// Tries the candidates, five numbers each, one after the other. Gives the number, the candidate that
/// decodes with its noise count, and its stretch of the region; its payload is at the front of `out`.
///
/// On every number but 0 candidate and noise count are 0, the stretch is empty and `out` is untouched.
pub fn search<'a>(
    n_id: u16,
    region: &'a [i32],
    candidates: &[u32],
    out: &mut [u8],
) -> (Answer, &'a [i32]) {
    let (cces, values_left) = (region.len() / CCE, region.len() % CCE);
    let (count, numbers_left) = (candidates.len() / NUMBERS, candidates.len() % NUMBERS);
    if values_left > 0 || cces > CCES || numbers_left > 0 || count > CANDIDATES {
        return ((4, 0, 0), &[]);
    }
    if out.len() != BUFFER {
        return ((5, 0, 0), &[]);
    }
    let places = places(cces);
    for (i, candidate) in candidates.chunks(NUMBERS).enumerate() {
        if let Some(read) = read(n_id, region, candidate, &places) {
            out[..read.payload.len()].copy_from_slice(&read.payload);
            return ((0, i, read.noise), read.stretch);
        }
    }
    ((8, 0, 0), &[])
}

#[cfg(test)]
mod tests {
    use super::*;

    #[test]
    fn places_of_a_region_of_64() {
        let all = places(64);
        assert_eq!(all.len(), 64 + 32 + 16 + 8 + 4);
        for Place { first_cce, level } in all {
            assert!(first_cce % level == 0 && first_cce + level <= 64);
        }
    }

    #[test]
    fn places_of_small_regions() {
        let place = |(first_cce, level)| Place { first_cce, level };
        assert_eq!(places(0), []);
        assert_eq!(places(1), [(0, 1)].map(place));
        assert_eq!(
            places(5),
            [
                (0, 1),
                (1, 1),
                (2, 1),
                (3, 1),
                (4, 1),
                (0, 2),
                (2, 2),
                (0, 4)
            ]
            .map(place)
        );
    }
}
