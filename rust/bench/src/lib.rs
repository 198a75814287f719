//! The benchmark's yardstick: a twin of the proved library, tuned for speed and not proved.

pub mod twin;
