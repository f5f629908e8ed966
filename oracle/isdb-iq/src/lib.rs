//! A stand-in for the crate of this name.

pub mod survey {
    /// A system's symbol rate and roll-off.
    pub struct KnownSystem {
        pub symbol_rate_hz: f64,
        pub roll_off: f64,
    }
}
