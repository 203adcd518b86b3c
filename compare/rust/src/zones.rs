//! A pack's zones for the original over the stand-in, which takes packs.

pub use jiff::tz::{lend, Lack};

/// The name as the original is told it: one character for each byte.
pub fn asked(name: &[u8]) -> String {
    name.iter().copied().map(char::from).collect()
}

pub fn look_up(name: &[u8]) -> Result<(), Lack> {
    jiff::tz::find(name).map(|_| ())
}
