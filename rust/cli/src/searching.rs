//! What a search is given, and what its answer says of it.

use crate::answers::meaning;
use crate::candidates::{self, Listed};
use crate::failure::Failure;
use crate::inputs::Input;
use crate::soft::{self, Soft};
use speltfeather::{CCE, Candidate, Numbers, Refusal, decode};

/// CCEs in a region, and candidates in a list, at most.
const CCES: usize = 64;
const CANDIDATES: usize = 44;

/// The identity, the list and the region.
pub struct Search {
    n_id: u16,
    pub list: Vec<Listed>,
    /// What an error calls the list.
    pub source: String,
    region: Vec<Soft>,
    /// The region without its lines.
    pub values: Vec<i32>,
}

impl Search {
    /// Reads list and region; n_RNTI is for the candidates whose line has none.
    ///
    /// # Errors
    /// One of them cannot be read.
    pub fn read(n_id: u16, n_rnti: u16, list: Input, region: Input) -> Result<Self, Failure> {
        let region = soft::read(&region)?;
        Ok(Self {
            n_id,
            list: candidates::read(&list, n_rnti)?,
            source: list.source,
            values: soft::values(&region),
            region,
        })
    }

    /// The list without its lines.
    pub fn candidates(&self) -> Vec<Candidate> {
        self.list.iter().map(|listed| listed.candidate).collect()
    }

    /// What a refusal says of this search.
    pub fn explained(&self, refusal: Refusal) -> String {
        match refusal {
            Refusal::InputLength => self.lengths(),
            Refusal::NoCandidate => {
                let hint = soft::hint(&self.region);
                format!("{}: {}{hint}", meaning(refusal), self.tally())
            }
            other => other.to_string(),
        }
    }

    /// Which of the two is too long or not whole.
    fn lengths(&self) -> String {
        let (values, count) = (self.values.len(), self.list.len());
        let region = format!(
            "the region has {values} soft values: expected {CCE} for each of at most {CCES} CCEs, {} \
             at most",
            CCES * CCE
        );
        let list = format!(
            "{} has {count} candidates: expected at most {CANDIDATES}",
            self.source
        );
        let region_is_whole = values % CCE == 0 && values <= CCES * CCE;
        match (region_is_whole, count <= CANDIDATES) {
            (false, false) => format!("{region}; {list}"),
            (false, true) => region,
            _ => list,
        }
    }

    /// How many candidates were tried where none decodes, and the first that could not be.
    fn tally(&self) -> String {
        let (source, count) = (&self.source, self.list.len());
        let reason = |listed: &Listed| {
            let reason = self.barred(&listed.candidate)?;
            Some(format!("line {} of {source} ({reason})", listed.line))
        };
        let reasons: Vec<String> = self.list.iter().filter_map(reason).collect();
        let tried = format!("{} of {count} tried", count - reasons.len());
        match reasons.as_slice() {
            [] if count == 0 => format!("{source} has none"),
            [] => tried,
            [only] => format!("{tried}; not tried: {only}"),
            [first, others @ ..] => {
                format!("{tried}; not tried: {first} and {} more", others.len())
            }
        }
    }

    /// Why a candidate cannot be decoded; none if its parity alone does not match.
    fn barred(&self, candidate: &Candidate) -> Option<String> {
        let Candidate { level, a, .. } = *candidate;
        let reason = misplaced(candidate, self.values.len() / CCE).or_else(|| too_large(candidate));
        if reason.is_some() {
            return reason;
        }
        let (start, length) = (CCE * candidate.first_cce as usize, CCE * level as usize);
        let numbers = Numbers {
            a: a.into(),
            e: length as u64,
            rnti: candidate.rnti as u16,
            n_id: self.n_id,
            n_rnti: candidate.n_rnti as u16,
        };
        let mut payload = vec![0; a.min(140) as usize];
        match decode(&numbers, &self.values[start..start + length], &mut payload).err()? {
            Refusal::ParityMismatch => None,
            Refusal::PayloadSize => Some(format!("A {a}: expected 12 to 140")),
            Refusal::TooManyBits => Some(format!(
                "A {a}: expected at most {} at level {level}",
                length - 24
            )),
            Refusal::BadEntry(place) => Some(self.out_of_range(start + place)),
            other => Some(other.to_string()),
        }
    }

    fn out_of_range(&self, place: usize) -> String {
        let Soft { value, line } = self.region[place];
        format!(
            "soft value {place} of the region is {value}, in its line {line}: expected -127 to 127"
        )
    }
}

/// Which of the numbers that have 16 bits is larger; none if neither is.
fn too_large(candidate: &Candidate) -> Option<String> {
    let numbers = [("RNTI", candidate.rnti), ("n_RNTI", candidate.n_rnti)];
    let is_larger = |(_, number): &(_, u32)| *number > u16::MAX.into();
    let (name, number) = numbers.into_iter().find(is_larger)?;
    Some(format!("{name} {number}: expected 0 to 65535"))
}

/// Why no message can lie there in a region of so many CCEs; none if one can.
fn misplaced(candidate: &Candidate, cces: usize) -> Option<String> {
    let (first, level) = (candidate.first_cce, candidate.level);
    let end = u64::from(first) + u64::from(level);
    if ![1, 2, 4, 8, 16].contains(&level) {
        Some(format!("level {level}: expected 1, 2, 4, 8 or 16"))
    } else if first % level != 0 {
        Some(format!(
            "first CCE {first}: expected a multiple of the level, {level}"
        ))
    } else if end > cces as u64 {
        Some(format!(
            "first CCE {first} with level {level}: the region has {cces} CCEs"
        ))
    } else {
        None
    }
}
