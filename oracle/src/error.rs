//! The part of the module's error type that it uses, where the type itself isn't at hand.

#[derive(Debug, Clone, PartialEq)]
pub enum MlError {
    InvalidArgument { what: &'static str },
    InsufficientData { got: usize, needed: usize, what: &'static str },
    NonFinite { what: &'static str },
    DecompositionFailed { what: &'static str },
}
