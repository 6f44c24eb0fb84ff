//! Stand-in for math/probability.rs, which the text names and does not show. Only the density correction calls it, which
//! is not ported; a call ends the run, so nothing can rest on it.

pub fn erf(_: f64) -> f64 {
    panic!("the density correction is outside the port")
}
