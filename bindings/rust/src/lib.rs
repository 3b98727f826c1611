//! Mortarbee's proved entries as safe functions. Any bytes may be handed to them: each call ends with what it wrote to the lent
//! rooms, or with a refusal that changed no lent byte. [`owned`] has them with their answers in vectors, [`lines`] the lines 70 to 77 as
//! values.
//!
//! ```
//! use mortarbee::{assemble, Refusal, IMAGE_ROOM};
//! let mut image = vec![0; IMAGE_ROOM];
//! let done = assemble(b"0143\n012B0000000000\n", &mut image).unwrap();
//! assert_eq!(&image[..done.image], [0x00, 0x21, 0x00, 0x00]);
//! assert_eq!(assemble(b"012B010001\n", &mut image), Err(Refusal { number: 4, place: 0, argument: 0, amount: 0 }));
//! ```
//!
//! The feature `all` (by default) links libborder.a, `core` alone libborder_core.a with the main job; without either no archive is
//! needed, and types, lines and streams are left.
#![warn(missing_debug_implementations)]

pub mod lines;
mod refusal;
mod settings;
#[cfg(feature = "streams")]
pub mod streams;

pub use lines::{Finding, Origin};
pub use refusal::*;
pub use settings::*;

#[cfg(feature = "core")]
pub mod owned;
#[cfg(feature = "core")]
mod raw;
#[cfg(feature = "core")]
mod run;
#[cfg(feature = "core")]
pub use run::*;

#[cfg(feature = "all")]
mod people;
#[cfg(feature = "all")]
mod store;
#[cfg(feature = "all")]
mod telling;
#[cfg(feature = "all")]
pub use {people::*, store::*, telling::*};
