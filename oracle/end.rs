//! The end of a comparison.
use crate::random::is_fixed_round;
use std::process::ExitCode;
use std::time::Instant;

/// Prints how many calls differ, how many facts don't occur and how long it took; the exit status is 1 on any difference and, in round 0, where a fact that must occur doesn't.
pub fn end(differences: u64, missing: u64, begin: Instant) -> ExitCode {
    println!("{differences} differences, {missing} facts that don't occur, {:.1} s", begin.elapsed().as_secs_f64());
    ExitCode::from(u8::from(differences != 0 || missing != 0 && is_fixed_round()))
}
