//! A second reading of recorded GIOP traffic, written from the papers alone.
//!
//! The modules follow the papers' sections. Each answer is either accepted or
//! the number of a refusal, of those in [`refusal`].

pub mod cursor;
pub mod frame;
pub mod header;
pub mod hexline;
pub mod inspect;
pub mod joining;
pub mod lines;
pub mod primitive;
pub mod profile;
pub mod recording;
pub mod refusal;
pub mod rewrite;
#[cfg(test)]
mod samples;
pub mod shape;
pub mod told;
pub mod typecode;
pub mod value;

pub use frame::{frame, Header};
pub use hexline::{decode, encode};
