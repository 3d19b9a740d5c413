//! The layers of the port. Each is a file, with one `LAYER`, and has a line in each of the two lists here.

pub mod colors;
pub mod decimals;
pub mod entities;
pub mod numerals;
pub mod parse;
pub mod readback;
pub mod recaption;
pub mod scan;
pub mod spoken;
pub mod styles;
pub mod times;
pub mod tree;
pub mod utf8;
pub mod write;

use crate::bench::Bench;
use crate::compare::Run;
use crate::record::Recording;

pub static LAYERS: &[Layer] = &[
    utf8::LAYER,
    scan::LAYER,
    numerals::LAYER,
    entities::LAYER,
    tree::LAYER,
    decimals::LAYER,
    times::LAYER,
    colors::LAYER,
    styles::LAYER,
    parse::LAYER,
    write::LAYER,
    spoken::LAYER,
    readback::LAYER,
    recaption::LAYER,
];

pub struct Layer {
    pub name: &'static str,
    /// Makes the cases, asks both sides, and hands both answers to `Run::same`.
    pub compare: fn(&mut Run),
    /// How a sample of the Rust's answers is recorded for a program of the gate.
    pub record: Option<Recording>,
    /// Times both sides.
    pub bench: Option<fn(&mut Bench)>,
}
