//! TTML captions read, written and asked about, by the proved library of this repository.
//!
//! [`Tables`] is the memory that the library works on; it is made once and reused. A text that is read into it is a
//! [`Track`], which borrows the tables: cues with their times and segments, named styles, regions, parameters. Whatever
//! the text is, the answer is the one that the specification says, or a [`Refusal`] that tells line and column.
//!
//! ```
//! use postgarlic::Tables;
//!
//! let mut tables = Tables::new();
//! let track = tables.parse("<tt><body><p begin='00:05' dur='1.5s'>Pawn to<br/>e4</p></body></tt>")?;
//! for cue in track.cues() {
//!     assert_eq!(cue.begin(), 300_000_000); // hours and minutes, in microseconds
//!     assert_eq!(cue.end(), 301_500_000);
//!     assert_eq!(cue.text()?, "Pawn to\ne4");
//! }
//!
//! let refusal = tables.parse("<tt><body>\n<p begin=1/2s></p></body></tt>").unwrap_err();
//! assert_eq!(refusal.number(), 8);
//! assert_eq!(refusal.to_string(), "line 2, column 11: no `>` follows this `/` in a start tag (number 8)");
//! # Ok::<(), postgarlic::Refusal>(())
//! ```
//!
//! Nothing here is proved: this crate declares the library's calls in C (in `library`, its only module with `unsafe`)
//! and reads the tables. A call needs at most 262,144 bytes of stack.

#![deny(missing_docs)]
#![deny(unsafe_code)]

mod cue;
mod library;
mod names;
mod refusal;
mod style;
mod tables;
mod track;

pub use cue::{Cue, Segment, Segments};
pub use refusal::{Reason, Refusal};
pub use style::{Align, Color, HeadStyle, Resolved, Size, Style};
pub use tables::Tables;
pub use track::{Extras, Param, Region, Track};
