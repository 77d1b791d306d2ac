//! The search beside single decodes of the same candidates under the same numbers, which also stop at
//! the first that is accepted.

use crate::contestants::{Contestants, Given, Message, accepted};
use crate::{Line, Make, lines_of, timed_lines};
use channel::{Noise, Random};
use conformance::searches::{candidate, numbers_of};
use reference::CODED_LENGTHS;
use reference::searching::{BUFFER, CANDIDATES, CCE, CCES, LEVELS};
use speltfeather::{Candidate, Numbers, decode};
use std::sync::LazyLock;

const A: u32 = 40;
const RNTI: u32 = 0x4601;

/// A candidate of the handset's own search space, where n_RNTI is its RNTI.
fn own(first_cce: usize, level: usize, a: u32) -> Candidate {
    candidate([first_cce as u32, level as u32, a, RNTI, RNTI])
}

/// For each level 44 candidates, one behind the other and round the region.
static ROUND: LazyLock<Vec<Vec<Candidate>>> = LazyLock::new(|| {
    let list = |level: usize| (0..CANDIDATES).map(move |i| own(i * level % CCES, level, A));
    LEVELS.map(|level| list(level).collect()).into()
});

/// A handset's list: 2, 2 and 1 candidates of the levels 4, 8 and 16, then 6 and 6 of the levels 1 and
/// 2, each with two payload sizes.
fn handset() -> impl Iterator<Item = Candidate> {
    let counts = [(4, 2), (8, 2), (16, 1), (1, 6), (2, 6)];
    let places = counts
        .into_iter()
        .flat_map(|(level, count)| (0..count).map(move |i| (i * level, level)));
    places.flat_map(|(first, level)| [A, A + 16].map(|a| own(first, level, a)))
}

/// How the n_RNTIs of a handset's list follow each other, each with what says which candidate is of the
/// common search space, where n_RNTI is 0.
type Order = (&'static str, fn(usize, &Candidate) -> bool);

const ORDERS: [Order; 3] = [
    ("one", |_, _| false),
    ("0, then another", |_, candidate| candidate.level >= 4),
    ("0 and another in turns", |i, _| i % 2 == 0),
];

/// A handset's list in each of the orders.
static HANDSETS: LazyLock<Vec<Vec<Candidate>>> = LazyLock::new(|| {
    let ordered = |(_, is_common): Order| {
        let listed = handset().enumerate();
        let n_rnti = |(i, candidate)| match is_common(i, &candidate) {
            true => Candidate {
                n_rnti: 0,
                ..candidate
            },
            false => candidate,
        };
        listed.map(n_rnti).collect()
    };
    ORDERS.map(ordered).into()
});

/// Of several lists the one that a length says.
fn list_for(lists: &'static [Vec<Candidate>], e: u64) -> &'static [Candidate] {
    &lists[(e / CCE as u64).ilog2() as usize]
}

fn round(e: u64) -> &'static [Candidate] {
    list_for(&ROUND, e)
}

/// The candidate that a search of the list finds, and its noise count.
type Named = Option<(usize, usize)>;

fn searched(list: &[Candidate], n_id: u16, region: &[i32], out: &mut [u8]) -> Named {
    let found = speltfeather::search(n_id, region, list, out).ok()?;
    Some((found.candidate, found.noise))
}

fn decoded(list: &[Candidate], n_id: u16, region: &[i32], out: &mut [u8]) -> Named {
    let noise = |candidate: &Candidate| {
        let start = CCE * candidate.first_cce as usize;
        let stretch = &region[start..start + CCE * candidate.level as usize];
        let out = &mut out[..candidate.a as usize];
        let reading = decode(&numbers_of(candidate, n_id), stretch, out);
        reading.ok().map(|reading| reading.noise)
    };
    let mut noises = list.iter().map(noise).enumerate();
    noises.find_map(|(i, noise)| Some((i, noise?)))
}

/// None may be found.
fn none(named: Named) -> Given {
    assert_eq!(named, None);
    Err(8)
}

/// The first must be found.
fn first(named: Named) -> Given {
    let (candidate, noise) = named.expect("a message");
    assert_eq!(candidate, 0);
    Ok(noise)
}

/// 44 candidates of a level, none of which is accepted.
const NONE_OF_44: Contestants<i32, 2> = [
    |numbers, region, out| none(searched(round(numbers.e), numbers.n_id, region, out)),
    |numbers, region, out| none(decoded(round(numbers.e), numbers.n_id, region, out)),
];

/// The same, and the first is accepted.
const FIRST_OF_44: Contestants<i32, 2> = [
    |numbers, region, out| first(searched(round(numbers.e), numbers.n_id, region, out)),
    |numbers, region, out| first(decoded(round(numbers.e), numbers.n_id, region, out)),
];

/// A handset's list, of which none is accepted.
const NONE_OF_HANDSET: Contestants<i32, 2> = [
    |numbers, region, out| {
        let list = list_for(&HANDSETS, numbers.e);
        none(searched(list, numbers.n_id, region, out))
    },
    |numbers, region, out| {
        let list = list_for(&HANDSETS, numbers.e);
        none(decoded(list, numbers.n_id, region, out))
    },
];

/// A region of noise.
fn noise(a: u64, e: u64, random: &mut Random) -> Message<i32> {
    let mut input = vec![0; CCE * CCES];
    Noise::new(127.0 / 4.0).fill(&mut input, random);
    Message {
        numbers: Numbers {
            rnti: RNTI as u16,
            n_rnti: RNTI as u16,
            ..random.numbers(a, e)
        },
        input,
        out: vec![0; BUFFER],
    }
}

/// The same with a message in front.
fn message(a: u64, e: u64, random: &mut Random) -> Message<i32> {
    let mut message = noise(a, e, random);
    let soft = accepted(&message.numbers, random);
    message.input[..soft.len()].copy_from_slice(&soft);
    message
}

fn timed(lengths: &[u64], contestants: &Contestants<i32, 2>, make: Make<i32>) -> Vec<Line<i32, 2>> {
    let sizes = lengths.iter().map(|&e| (A.into(), e));
    timed_lines(contestants, lines_of(sizes, contestants, make))
}

fn print_table(title: &str, contestants: &Contestants<i32, 2>, make: Make<i32>) {
    println!("\n### {title}\n");
    println!("| level |    E | search, ns | decodes, ns | search : decodes |");
    println!("|-----:|-----:|------:|------:|-----:|");
    for line in timed(&CODED_LENGTHS, contestants, make) {
        let ([search, decodes], e) = (line.times, line.e);
        let (level, ratio) = (e / CCE as u64, search / decodes);
        println!("| {level:>2} | {e:>4} | {search:>6.0} | {decodes:>6.0} | {ratio:>6.3} |");
    }
}

/// The length says the order of the n_RNTIs alone.
fn print_handset() {
    let lines = timed(&CODED_LENGTHS[..ORDERS.len()], &NONE_OF_HANDSET, noise);
    println!("\n### Searching, none of a handset's list is accepted\n");
    println!("| n_RNTI | candidates | search, ns | decodes, ns | search : decodes |");
    println!("|:-----|-----:|------:|------:|-----:|");
    for ((order, _), line) in ORDERS.iter().zip(lines) {
        let [search, decodes] = line.times;
        let (count, ratio) = (handset().count(), search / decodes);
        println!("| {order:<22} | {count:>2} | {search:>6.0} | {decodes:>6.0} | {ratio:>6.3} |");
    }
}

pub fn print() {
    print_table("Searching, none of 44 is accepted", &NONE_OF_44, noise);
    print_table(
        "Searching, the first of 44 is accepted",
        &FIRST_OF_44,
        message,
    );
    print_handset();
}
