//! The sizes of lattices, lawful and not.
use calls::random::Random;

/// How many time steps a lattice has, and how many points along each axis of space.
pub type Size = (usize, usize);

/// The sizes along an axis of which all pairs are tried: at the limits, a cube or a power, and some that are small or make a small product after a cut to 16, 32 or 64 bits.
const ALONG: [usize; 37] = [
    0,
    1,
    2,
    3,
    4,
    5,
    6,
    7,
    8,
    9,
    10,
    11,
    12,
    13,
    16,
    27,
    64,
    341,
    342,
    4_096,
    65_536,
    65_538,
    1 << 21,
    1 << 22,
    (1 << 22) + 2,
    1 << 31,
    1 << 32,
    (1 << 32) + 2,
    (1 << 32) + 3,
    1 << 61,
    (1 << 61) + 2,
    1 << 62,
    1 << 63,
    (1 << 63) + 2,
    (1 << 63) + 3,
    usize::MAX - 1,
    usize::MAX,
];

/// How many cells there are, and as many vertices, where the number can be told.
pub fn cells((n_t, n_s): Size) -> Option<usize> {
    n_s.checked_mul(n_s)?.checked_mul(n_s)?.checked_mul(n_t)
}

/// The room that a list of the pentachorons needs, where it can be told.
pub fn room(size: Size) -> Option<usize> {
    cells(size)?.checked_mul(120)
}

/// Whether the table of 01-scope.md has no 6 for a size.
pub fn is_lawful(size: Size) -> bool {
    let within = |n: usize| (2..=8).contains(&n);
    within(size.0) && within(size.1) && cells(size).is_some_and(|cells| cells <= 341)
}

/// All pairs of sizes along an axis.
fn pairs() -> impl Iterator<Item = Size> {
    ALONG.into_iter().flat_map(|n_t| ALONG.map(|n_s| (n_t, n_s)))
}

/// Every lawful size.
pub fn lawful() -> Vec<Size> {
    pairs().filter(|&size| is_lawful(size)).collect()
}

/// A number whose product with an odd one is 1 after a cut to 64 bits.
fn inverse(odd: usize) -> usize {
    (0..6).fold(odd, |inverse, _| inverse.wrapping_mul(2_usize.wrapping_sub(odd.wrapping_mul(inverse))))
}

/// Sizes that aren't lawful: those pairs, some whose number of cells is a small one after a cut to 64 bits, and any.
pub fn unlawful(random: &mut Random) -> Vec<Size> {
    let mut sizes: Vec<Size> = pairs().filter(|&size| !is_lawful(size)).collect();
    for n_s in [3_usize, 5, 7, 9] {
        sizes.extend((16..100).step_by(7).map(|cells: usize| (cells.wrapping_mul(inverse(n_s * n_s * n_s)), n_s)));
    }
    for _ in 0..200 {
        let (any, small) = (random.word() as usize | 1 << 9, random.below(10));
        sizes.push(random.pick(&[(any, small), (small, any), (any, random.0 as usize | 1 << 9)]));
    }
    sizes
}
