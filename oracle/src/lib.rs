//! The two sides that are compared: the unchanged Rust module and the proved port.

include!(concat!(env!("OUT_DIR"), "/modules.rs"));

/// The source's names, as a program uses them.
pub mod source {
    pub use crate::error::MlError;
    pub use crate::trend_filter::*;
}

pub mod cases;
pub mod compare;
pub mod errors;
pub mod port;
pub mod random;
pub mod replay;
pub mod stored;
