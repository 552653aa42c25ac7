//! fdlibm's C in place of the system's libm, for the altered copy.

unsafe extern "C" {
    safe fn fdlibm_acos(x: f64) -> f64;
    safe fn fdlibm_acosh(x: f64) -> f64;
    safe fn fdlibm_asinh(x: f64) -> f64;
}

/// The methods that the altered copy calls.
pub trait Fdlibm {
    fn fdlibm_acos(self) -> f64;
    fn fdlibm_acosh(self) -> f64;
    fn fdlibm_asinh(self) -> f64;
}

impl Fdlibm for f64 {
    fn fdlibm_acos(self) -> f64 {
        fdlibm_acos(self)
    }
    fn fdlibm_acosh(self) -> f64 {
        fdlibm_acosh(self)
    }
    fn fdlibm_asinh(self) -> f64 {
        fdlibm_asinh(self)
    }
}
