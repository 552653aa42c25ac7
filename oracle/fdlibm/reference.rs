//! fdlibm's C, as oracle/fdlibm/build compiles it.

unsafe extern "C" {
    pub safe fn fdlibm_sqrt(x: f64) -> f64;
    pub safe fn fdlibm_log(x: f64) -> f64;
    pub safe fn fdlibm_log1p(x: f64) -> f64;
    pub safe fn fdlibm_acos(x: f64) -> f64;
    pub safe fn fdlibm_acosh(x: f64) -> f64;
    pub safe fn fdlibm_asinh(x: f64) -> f64;
}
