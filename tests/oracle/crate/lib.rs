//! Ours: the root under which the crate's own files are a library.
#![allow(dead_code)]
mod error;
pub mod hazmat;
pub use error::{Error, FrodoResult};
