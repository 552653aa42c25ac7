//! The spacings and time steps of flat lengths.
use calls::random::Random;

/// A spacing and a time step.
pub type Units = (f64, f64);

/// The numbers of which all pairs are tried.
const CHOSEN: [f64; 22] = [
    1.0,
    0.0,
    -0.0,
    -1.0,
    f64::NAN,
    f64::INFINITY,
    f64::NEG_INFINITY,
    5e-324,
    -5e-324,
    f64::MIN_POSITIVE,
    f64::MAX,
    f64::MIN,
    1e-200,
    -1e-200,
    1e200,
    -1e154,
    1.3e154,
    1e-162,
    0.5,
    0.1,
    -3.0,
    1.0 / 3.0,
];

/// The kinds of numbers that are drawn.
const KINDS: [fn(&mut Random) -> f64; 10] = [
    |random| random.bits(),
    |random| random.whole(1_000),
    |random| random.spread(-3, 3),
    |random| random.spread(-60, 60),
    |random| random.subnormal(),
    |random| random.tiny(),
    |random| random.huge(),
    |random| random.spread(505, 512),
    |random| random.nan(),
    |random| random.pick(&[random.0 as f64, 0.0, -0.0, f64::INFINITY, f64::NEG_INFINITY]),
];

/// All pairs of the chosen numbers.
pub fn chosen() -> impl Iterator<Item = Units> {
    CHOSEN.into_iter().flat_map(|spacing| CHOSEN.map(|dt| (spacing, dt)))
}

/// A pair of drawn numbers: half of the time both are of one kind, and now and then they are near each other.
pub fn drawn(random: &mut Random) -> Units {
    let kind = random.pick(&KINDS);
    let spacing = kind(random);
    let (alike, other) = (kind(random), random.pick(&KINDS)(random));
    let near = random.nudged(spacing, 3);
    (spacing, random.pick(&[alike, alike, alike, other, other, near]))
}
