// The published mod.rs (003) names modules that are not supplied, so its error type stands here.
#![allow(dead_code)]
pub mod butterworth;
pub mod chebyshev;
pub mod fir;

#[derive(Debug, Clone, Copy, PartialEq, Eq)]
pub enum FilterError {
    InvalidOrder,
    InvalidFrequency,
    InvalidSampleRate,
    InvalidRipple,
}
