//! Buffers lent to the port, with an area around them that it must leave alone.

use crate::compare::{Esc, Run};
use std::fmt::Arguments;

/// What the port may not do with what it is lent.
#[derive(Debug, PartialEq)]
pub enum Fault {
    WroteOutside,
    /// It wrote after the bytes or cells that its answer speaks of.
    WroteAfter,
    /// It answered more bytes than it was lent.
    Answered(usize),
}

/// What a buffer holds before it is lent. No UTF-8 has this byte, so an answer cannot be mistaken for it.
const FILL: u8 = 0xFF;
const GUARD: usize = 32;

/// A byte buffer that serves many questions.
#[derive(Default)]
pub struct Lent(Vec<u8>);

impl Lent {
    /// Lends `length` bytes. The question answers how many it wrote at their start, or `usize::MAX`, then
    /// what they hold is open.
    pub fn ask(&mut self, length: usize, question: impl FnOnce(&mut [u8]) -> usize) -> Result<Option<Esc<'_>>, Fault> {
        let whole = length + 2 * GUARD;
        if self.0.len() < whole {
            self.0.resize(whole, FILL);
        }
        let whole = &mut self.0[..whole];
        whole.fill(FILL);
        let written = question(&mut whole[GUARD..GUARD + length]);
        let (before, rest) = whole.split_at(GUARD);
        let (lent, after) = rest.split_at(length);
        if before != [FILL; GUARD] || after != [FILL; GUARD] {
            return Err(Fault::WroteOutside);
        }
        if written == usize::MAX {
            return Ok(None);
        }
        let Some((text, rest)) = lent.split_at_checked(written) else {
            return Err(Fault::Answered(written));
        };
        if rest.iter().any(|&b| b != FILL) {
            return Err(Fault::WroteAfter);
        }
        Ok(Some(Esc(text)))
    }

    /// Compares what the port writes into buffers of several lengths, around the one that just fits.
    pub fn same(
        &mut self,
        run: &mut Run,
        function: &'static str,
        input: Arguments,
        rust: &[u8],
        port: impl Fn(&mut [u8]) -> usize,
    ) {
        let fits = rust.len();
        for length in [0, fits.saturating_sub(6), fits.saturating_sub(1), fits, fits + 1, fits + 9] {
            let rust = (length >= fits).then_some(Esc(rust));
            run.same(function, format_args!("{input} into {length} bytes"), Ok(rust), self.ask(length, &port));
        }
    }
}

/// What a cell of a table holds before it is lent.
pub trait Cell: Copy + PartialEq {
    const FILL: Self;
}

impl Cell for u32 {
    const FILL: u32 = 0xA5A5_5A5A;
}

impl Cell for u64 {
    const FILL: u64 = 0xFFFF_0BAD_0BAD_FFFF;
}

impl Cell for i64 {
    const FILL: i64 = -0x0BAD_0BAD_0BAD_0BAD;
}

impl Cell for f64 {
    const FILL: f64 = -1.25e-200;
}

impl Cell for f32 {
    const FILL: f32 = -1.25e-20;
}

impl Cell for u8 {
    const FILL: u8 = 0xA5;
}

/// Lends `lent` cells, at most 4, to a question that may write the first `USED`. Gives its answer and those.
pub fn cells<const USED: usize, C: Cell, A>(
    lent: usize,
    question: impl FnOnce(&mut [C]) -> A,
) -> Result<(A, [C; USED]), Fault> {
    let mut cells = [C::FILL; 8];
    let answer = question(&mut cells[..lent]);
    if cells[lent..].iter().any(|&cell| cell != C::FILL) {
        return Err(Fault::WroteOutside);
    }
    if cells[USED..].iter().any(|&cell| cell != C::FILL) {
        return Err(Fault::WroteAfter);
    }
    let mut used = [C::FILL; USED];
    used.copy_from_slice(&cells[..USED]);
    Ok((answer, used))
}
