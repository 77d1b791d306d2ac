//! A handset looks for its messages in a region with three: its own, and the one to all.

use crate::SEED;
use channel::{Noise, Random, received};
use cli::text;
use speltfeather::{CCE, Candidate, Found, MAX_PAYLOAD, Numbers, encode, search};
use std::io::{self, Write};

/// CCEs of the region.
const CCES: u32 = 48;
/// The cell's identity, and the one that is configured for user-specific spaces.
const N_ID: u16 = 500;
/// At 0 dB the noise is as strong as the signal; the gain leaves room for three deviations of it.
const STRENGTH: f64 = 127.0 / 4.0;

/// A search space: what a handset looks for in it, and where.
struct Space {
    rnti: u32,
    n_rnti: u32,
    /// The payload sizes that it looks for at each place.
    sizes: &'static [u32],
    /// Aggregation levels, and at how many places of each it looks.
    places: &'static [(u32, u32)],
    /// What spreads the places over the region: Y of TS 38.213 10.1, in slot 0.
    spread: u32,
}

/// The C-RNTI of the handset, and its own space.
const C_RNTI: u32 = 0x4601;
const OWN: Space = Space {
    rnti: C_RNTI,
    n_rnti: C_RNTI,
    sizes: &[37, 50],
    places: &[(1, 6), (2, 5), (4, 4), (8, 2), (16, 1)],
    spread: 39827 * C_RNTI % 65537,
};
/// The space of system information, common to all handsets.
const COMMON: Space = Space {
    rnti: 0xFFFF,
    n_rnti: 0,
    sizes: &[37],
    places: &[(4, 4), (8, 2), (16, 1)],
    spread: 0,
};

/// A message and where it lies.
struct Sent {
    place: Candidate,
    payload: Vec<u8>,
}

pub fn show(sib1: &[u8]) {
    say!(
        "\n3. Search: {CCES} CCEs, noise at 0 dB, identity {N_ID}; a handset looks for its messages\n"
    );
    let mut random = Random::new(SEED);
    let sent = messages(sib1, &mut random);
    let region = region(&sent, &mut random);
    show_region(&sent);
    let (own, common) = (candidates(&OWN), candidates(&COMMON));
    say!(
        "\n   list     {} candidates in its own space, n_RNTI {:04x}, and {} in the common one, {:04x}",
        own.len(),
        OWN.n_rnti,
        common.len(),
        COMMON.n_rnti
    );
    let list = [own, common].concat();
    let place = show_search(&region, &list, &sent[1].payload);
    let behind = &list[place + 1..];
    say!("\n   again    with the {} behind it", behind.len());
    show_search(&region, behind, &sent[0].payload);
}

/// Searches for the message with this payload, and gives the candidate's place.
fn show_search(region: &[i32], list: &[Candidate], sent: &[u8]) -> usize {
    let mut payload = [0; MAX_PAYLOAD];
    let found = search(N_ID, region, list, &mut payload).expect("a message");
    assert_eq!(payload[..found.size], *sent, "the payload");
    show_found(&found, &list[found.candidate], &payload[..found.size]);
    found.candidate
}

fn show_found(found: &Found, candidate: &Candidate, payload: &[u8]) {
    let Candidate {
        first_cce,
        level,
        a,
        ..
    } = *candidate;
    let place = found.candidate;
    say!("   answer   0, candidate {place}, after {place} that do not decode");
    say!(
        "   numbers  first CCE {first_cce}, level {level}, {a} bits, {}",
        radio_numbers(candidate)
    );
    say!("   payload  {}, as it was sent", text::hex(payload));
    let start = CCE * first_cce as usize;
    let values = text::ranges(start..start + found.stretch.len()).concat();
    say!(
        "   lay in   {}, soft values {values} of the region",
        cces(candidate)
    );
    let (noise, values) = (found.noise, found.stretch.len());
    say!("   noise    count {noise}, of {values} soft values");
}

/// The announcement of SIB1, the handset's message, and that of another handset.
fn messages(sib1: &[u8], random: &mut Random) -> [Sent; 3] {
    let mut sent = |first_cce, level, a, rnti, n_rnti| Sent {
        place: Candidate {
            first_cce,
            level,
            a,
            rnti,
            n_rnti,
        },
        payload: random.bits(a as usize),
    };
    let mut messages = [
        sent(0, 8, 37, COMMON.rnti, COMMON.n_rnti),
        sent(28, 4, 50, OWN.rnti, OWN.n_rnti),
        sent(38, 2, 64, 0x4602, 0x4602),
    ];
    messages[0].payload = sib1.to_vec();
    messages
}

/// The soft values of the region.
fn region(sent: &[Sent], random: &mut Random) -> Vec<i32> {
    let mut region = vec![0; CCES as usize * CCE];
    Noise::new(STRENGTH).fill(&mut region, random);
    for Sent { place, payload } in sent {
        let (start, length) = (CCE * place.first_cce as usize, CCE * place.level as usize);
        let numbers = Numbers {
            a: place.a.into(),
            e: length as u64,
            rnti: place.rnti as u16,
            n_id: N_ID,
            n_rnti: place.n_rnti as u16,
        };
        let mut coded = vec![0; length];
        encode(&numbers, payload, &mut coded).expect("the numbers are accepted");
        region[start..start + length].copy_from_slice(&received(&coded, 1.0, STRENGTH, random));
    }
    region
}

fn show_region(sent: &[Sent]) {
    let cell = |cce: u32| {
        let lies = |Sent { place, .. }: &Sent| {
            (place.first_cce..place.first_cce + place.level).contains(&cce)
        };
        sent.iter()
            .position(lies)
            .map_or('·', |i| ['1', '2', '3'][i])
    };
    say!("       {}\n", (0..CCES).map(cell).collect::<String>());
    let whose = ["to all", "the handset's", "another handset's"];
    for (i, (Sent { place, .. }, whose)) in sent.iter().zip(whose).enumerate() {
        say!(
            "   {}  {:<12} {} bits, {}: {whose}",
            i + 1,
            cces(place),
            place.a,
            radio_numbers(place)
        );
    }
}

/// The places that a handset looks at in a space (TS 38.213 10.1), each for all sizes.
fn candidates(space: &Space) -> Vec<Candidate> {
    let place = |level, count, m| {
        let step = m * CCES / (level * count);
        level * ((space.spread + step) % (CCES / level))
    };
    let places = (space.places.iter())
        .flat_map(|&(level, count)| (0..count).map(move |m| (place(level, count, m), level)));
    let of_sizes = |(first_cce, level)| {
        space.sizes.iter().map(move |&a| Candidate {
            first_cce,
            level,
            a,
            rnti: space.rnti,
            n_rnti: space.n_rnti,
        })
    };
    places.flat_map(of_sizes).collect()
}

fn radio_numbers(candidate: &Candidate) -> String {
    format!(
        "RNTI {:04x}, n_RNTI {:04x}",
        candidate.rnti, candidate.n_rnti
    )
}

fn cces(candidate: &Candidate) -> String {
    let Candidate {
        first_cce, level, ..
    } = *candidate;
    format!("CCEs {first_cce}-{}", first_cce + level - 1)
}
