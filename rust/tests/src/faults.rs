//! What calls are refused for, one by one and together.

use channel::Random;
use reference::CODED_LENGTHS;

/// Sizes that a program with narrower numbers, or one that adds without care, would take for others.
pub const FAR: [u64; 8] = [
    1 << 8,
    1 << 16,
    1 << 32,
    1 << 63,
    u64::MAX - 23,
    u64::MAX - 12,
    u64::MAX - 1,
    u64::MAX,
];

/// Soft values that are out of range, some only if all their bits are looked at.
pub const BAD: [i32; 12] = [
    128,
    -128,
    129,
    -129,
    255,
    256,
    -256,
    1 << 16,
    1 << 24 | 5,
    i32::MAX,
    i32::MIN,
    i32::MIN + 1,
];

/// A set of the refusals 1 to 6.
#[derive(Clone, Copy, Debug)]
pub struct Faults(usize);

impl Faults {
    /// All 64 sets.
    pub fn sets() -> impl Iterator<Item = Self> {
        (0..64).map(Self)
    }

    pub fn has(self, number: u8) -> bool {
        self.0 >> (number - 1) & 1 == 1
    }

    /// The one that must be given; none for the empty set.
    pub fn first(self) -> Option<u8> {
        (1..=6).find(|&number| self.has(number))
    }

    /// Sizes to which exactly those of 1 to 3 apply that are in the set.
    pub fn sizes(self) -> (u64, u64) {
        let sizes = [
            (40, 108), // none of 1 to 3
            (11, 108),
            (40, 109),
            (11, 107),
            (85, 108),
            (141, 108),
            (85, 107),
            (141, 107), // all of 1 to 3
        ];
        sizes[self.0 & 7]
    }
}

/// A length that is right, or wrong by one, shorter or longer.
pub fn length(fits: u64, wrong: bool, shorter: bool) -> usize {
    match (wrong, shorter) {
        (false, _) => fits as usize,
        (true, true) => fits as usize - 1,
        (true, false) => fits as usize + 1,
    }
}

/// A pair of sizes with the number that it gets.
pub type Pair = (u64, u64, u8);

/// Pairs around the borders of 1; those that are accepted get `fine`.
fn payload_sizes(fine: u8) -> Vec<Pair> {
    let mut sized = vec![];
    for e in CODED_LENGTHS {
        let far = FAR
            .into_iter()
            .flat_map(|far| [0, 12, 40, 84].map(|near| far.wrapping_add(near).max(far)));
        sized.extend(
            [0, 1, 11, 141, 142, 255]
                .into_iter()
                .chain(far)
                .map(|a| (a, e, 1)),
        );
        sized.extend([12, 13, 83, 84].map(|a| (a, e, fine)));
    }
    for e in [216, 432, 864, 1728] {
        sized.extend([85, 139, 140].map(|a| (a, e, fine)));
    }
    sized
}

/// Pairs around the borders of 2.
fn coded_lengths() -> Vec<Pair> {
    let mut sized = vec![];
    for a in [12, 40, 84, 140] {
        sized.extend([0, 1, 32, 54, 64, 128, 256, 324, 512, 1024, 1836].map(|e| (a, e, 2)));
        for e in CODED_LENGTHS {
            let far = FAR.into_iter().map(|far| far.wrapping_add(e).max(far));
            sized.extend([e - 1, e + 1].into_iter().chain(far).map(|e| (a, e, 2)));
        }
    }
    sized
}

/// Pairs around the border of 3; those that are accepted get `fine`.
fn too_many_bits(fine: u8) -> Vec<Pair> {
    let mut sized: Vec<Pair> = (80..=84).map(|a| (a, 108, fine)).collect();
    sized.extend((85..=140).map(|a| (a, 108, 3)));
    sized.push((140, 216, fine));
    sized
}

/// All of these.
pub fn sizes(fine: u8) -> Vec<Pair> {
    [payload_sizes(fine), coded_lengths(), too_many_bits(fine)].concat()
}

/// Puts each pair to `expect`, with the number that it gets.
pub fn expect_all(pairs: Vec<Pair>, seed: u64, expect: fn(u64, u64, u8, &mut Random)) {
    let mut random = Random::new(seed);
    for (a, e, number) in pairs {
        expect(a, e, number, &mut random);
    }
}
