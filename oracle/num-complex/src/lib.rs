//! A stand-in for the crate of this name.

/// A pair of f32.
#[derive(Debug, Clone, Copy, PartialEq)]
pub struct Complex32 {
    pub re: f32,
    pub im: f32,
}
