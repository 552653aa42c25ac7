//! The square root and the functions of fdlibm 5.3 on which every angle rests; they give the same bits on every machine.
use crate::ffi;

/// The square root, the nearest double: NaN for NaN and below zero; both zeros and +infinity are kept.
///
/// ```
/// assert_eq!(cjapthumi::fdlibm::root(0.25), 0.5);
/// assert!(cjapthumi::fdlibm::root(-1.0).is_nan());
/// ```
pub fn root(x: f64) -> f64 {
    ffi::cjapthumi_root(x)
}

/// The natural logarithm.
///
/// ```
/// assert_eq!(cjapthumi::fdlibm::log(2.0).to_bits(), 0x3fe62e42fefa39ef);
/// ```
pub fn log(x: f64) -> f64 {
    ffi::cjapthumi_log(x)
}

/// The logarithm of 1 + x.
///
/// ```
/// assert_eq!(cjapthumi::fdlibm::log1p(2.0).to_bits(), 0x3ff193ea7aad030a);
/// ```
pub fn log1p(x: f64) -> f64 {
    ffi::cjapthumi_log1p(x)
}

/// The arc cosine.
///
/// ```
/// assert_eq!(cjapthumi::fdlibm::acos(0.0).to_bits(), 0x3ff921fb54442d18);
/// ```
pub fn acos(x: f64) -> f64 {
    ffi::cjapthumi_acos(x)
}

/// The inverse hyperbolic cosine.
///
/// ```
/// assert_eq!(cjapthumi::fdlibm::acosh(2.0).to_bits(), 0x3ff5124271980434);
/// ```
pub fn acosh(x: f64) -> f64 {
    ffi::cjapthumi_acosh(x)
}

/// The inverse hyperbolic sine.
///
/// ```
/// assert_eq!(cjapthumi::fdlibm::asinh(1.0).to_bits(), 0x3fec34366179d427);
/// ```
pub fn asinh(x: f64) -> f64 {
    ffi::cjapthumi_asinh(x)
}
