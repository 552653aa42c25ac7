//! How far the unaltered Rust's answers are from ours.

/// A number and its kind: 0 Spacelike, 1 Timelike; 0 for a number that has none.
pub type Angle = (f64, u8);

/// How many answers were taken into account, and how far they are apart at most.
#[derive(Default)]
pub struct Distance {
    answers: u64,
    differing: u64,
    pub apart: u64,
    pub kinds: u64,
    pub absolute: f64,
    pub ulps: u64,
}

impl Distance {
    /// Takes one answer into account; where a side is NaN or infinite, the answer is only counted.
    pub fn add(&mut self, ours: Angle, theirs: Angle) {
        self.answers += 1;
        self.kinds += u64::from(ours.1 != theirs.1);
        if agree(ours.0, theirs.0) {
            return;
        }
        self.differing += 1;
        if !ours.0.is_finite() || !theirs.0.is_finite() {
            self.apart += 1;
            return;
        }
        self.absolute = self.absolute.max((ours.0 - theirs.0).abs());
        self.ulps = self.ulps.max(rank(ours.0).abs_diff(rank(theirs.0)));
    }

    /// Prints the distance of the function or the answers of this name.
    pub fn print(&self, name: &str) {
        let Distance { answers, differing, apart, kinds, absolute, ulps } = self;
        println!(
            "{name}: {differing} of {answers} answers differ: {apart} NaN or infinite on one side, the others at most by {absolute:e} and {ulps} ulps; {kinds} kinds differ"
        );
    }
}

/// Whether two answers agree: any NaN agrees with any NaN.
pub fn agree(a: f64, b: f64) -> bool {
    a.to_bits() == b.to_bits() || (a.is_nan() && b.is_nan())
}

/// A double's place in the order of all doubles; both zeros have place 0.
fn rank(x: f64) -> i64 {
    let size = (x.to_bits() & !(1 << 63)) as i64;
    if x.is_sign_negative() { -size } else { size }
}
