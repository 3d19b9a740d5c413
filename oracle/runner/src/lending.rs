//! The thirteen tables of `parse` and `bytes_to_cue`, lent to the port, each within a guarded area, and what they hold
//! afterwards.

use crate::cells::Cells;
use crate::handed::Handed;
use crate::layers::tree::{ATTRS, NODES};
use crate::tables;
use std::ops::Range;

/// The lengths of the tables, in the order in which they are passed.
pub type Lengths = [usize; 13];

pub const FIXED: Lengths = {
    let [head, params, styles, regions, cues, times, segments, sizes, extras, strings, texts] = tables::LENGTHS;
    [NODES, ATTRS, head, params, styles, regions, cues, times, segments, sizes, extras, strings, texts]
};

/// How many cells a row has, and the tables' names.
const WIDTHS: Lengths = [6, 4, 10, 4, 27, 4, 11, 2, 6, 1, 3, 1, 1];
const NAMES: [&str; 13] = [
    "nodes", "attrs", "head", "params", "styles", "regions", "cues", "times", "segments", "sizes", "extras", "strings",
    "texts",
];

/// How much of the tables is filled before the call and looked at after it.
#[derive(Clone, Copy, Debug, PartialEq)]
pub enum Care {
    All,
    /// The rows that a text of so many bytes can fill, since each takes a byte or more; the ends; and some cells in a place that
    /// moves. What is not filled then is zero, as the call before left it.
    Near(usize),
}

/// So many cells more than the fixed length can be lent.
pub const MORE: usize = 500;
const GUARD: usize = 32;
/// The cells at the end, and those in the place that moves.
const SOME: usize = 16;

/// A cell that is not what it must be: floats by their bits.
#[derive(Debug, PartialEq)]
pub enum Wrong {
    Cell { table: &'static str, row: usize, cell: usize, is: i64, must: i64 },
    Outside(&'static str),
}

trait Cell: Copy + Default {
    /// What it holds before it is lent.
    const FILL: Self;
    fn number(self) -> i64;
    fn same(self, other: Self) -> bool;
}

macro_rules! whole_numbers {
    ($($cell:ty: $fill:expr,)*) => {
        $(impl Cell for $cell {
            const FILL: $cell = $fill;
            fn number(self) -> i64 {
                self as i64
            }
            fn same(self, other: $cell) -> bool {
                self == other
            }
        })*
    };
}

whole_numbers! {
    u8: 0xA5,
    u32: 0xA5A5_5A5A,
    i64: -0x0BAD_0BAD_0BAD_0BAD,
}

impl Cell for f32 {
    const FILL: f32 = -1.25e-20;
    fn number(self) -> i64 {
        self.to_bits() as i64
    }
    fn same(self, other: f32) -> bool {
        self.to_bits() == other.to_bits()
    }
}

struct Table<C> {
    number: usize,
    cells: Vec<C>,
}

impl<C: Cell> Table<C> {
    fn new(number: usize) -> Table<C> {
        Table { number, cells: vec![C::FILL; FIXED[number] + MORE + 2 * GUARD] }
    }

    fn lent(&self, lengths: &Lengths) -> &[C] {
        &self.cells[GUARD..GUARD + lengths[self.number]]
    }

    /// Which cells are filled and looked at.
    fn seen(&self, lengths: &Lengths, care: Care, calls: usize) -> [Range<usize>; 3] {
        let lent = lengths[self.number];
        let Care::Near(bytes) = care else { return [0..lent, 0..0, 0..0] };
        let near = WIDTHS[self.number] * (bytes + 2);
        let moving = calls * 997 % lent;
        let within = |range: Range<usize>| range.start.min(lent)..range.end.min(lent);
        [0..near, moving..moving + SOME, lent.saturating_sub(SOME)..lent].map(within)
    }

    /// The table, filled with other bits than zero where it is seen, and around it.
    fn lend(&mut self, lengths: &Lengths, care: Care, calls: usize) -> &mut [C] {
        let lent = GUARD..GUARD + lengths[self.number];
        for range in self.seen(lengths, care, calls) {
            self.cells[lent.clone()][range].fill(C::FILL);
        }
        self.cells[..lent.start].fill(C::FILL);
        self.cells[lent.end..lent.end + GUARD].fill(C::FILL);
        &mut self.cells[lent]
    }

    /// The first cell seen that is not what it must be: `must` at the start, then zero.
    fn wrong(&self, lengths: &Lengths, care: Care, calls: usize, must: &[C]) -> Option<Wrong> {
        let lent = self.lent(lengths);
        let table = NAMES[self.number];
        for range in self.seen(lengths, care, calls) {
            let named = &must[range.start.min(must.len())..range.end.min(must.len())];
            if let Some((at, is, must)) = other(&lent[range.clone()], named) {
                let at = range.start + at;
                let (row, cell) = (at / WIDTHS[self.number], at % WIDTHS[self.number]);
                return Some(Wrong::Cell { table, row, cell, is: is.number(), must: must.number() });
            }
        }
        let after = GUARD + lent.len();
        let touched = !all(&self.cells[..GUARD], C::FILL) || !all(&self.cells[after..after + GUARD], C::FILL);
        touched.then_some(Wrong::Outside(table))
    }
}

fn all<C: Cell>(cells: &[C], value: C) -> bool {
    // In runs, so that it compares many cells at once.
    cells.chunks(512).all(|run| run.iter().fold(true, |same, cell| same & cell.same(value)))
}

/// The first cell that differs from what it must be, which is zero after the last that is named.
fn other<C: Cell>(cells: &[C], must: &[C]) -> Option<(usize, C, C)> {
    let (used, rest) = cells.split_at(must.len());
    let same = used.iter().zip(must).fold(true, |same, (is, must)| same & is.same(*must));
    if same && all(rest, C::default()) {
        return None;
    }
    let must = |at: usize| must.get(at).copied().unwrap_or_default();
    let at = (0..cells.len()).find(|&at| !cells[at].same(must(at)))?;
    Some((at, cells[at], must(at)))
}

pub struct Lending {
    nodes: Table<u32>,
    attrs: Table<u32>,
    head: Table<u32>,
    params: Table<u32>,
    styles: Table<u32>,
    regions: Table<u32>,
    cues: Table<u32>,
    times: Table<i64>,
    segments: Table<u32>,
    sizes: Table<f32>,
    extras: Table<u32>,
    strings: Table<u8>,
    texts: Table<u8>,
    pub calls: usize,
}

/// Which of the two is asked.
#[derive(Clone, Copy, Debug, PartialEq)]
pub enum Call {
    Parse,
    Cue,
}

impl Lending {
    pub fn new() -> Lending {
        Lending {
            nodes: Table::new(0),
            attrs: Table::new(1),
            head: Table::new(2),
            params: Table::new(3),
            styles: Table::new(4),
            regions: Table::new(5),
            cues: Table::new(6),
            times: Table::new(7),
            segments: Table::new(8),
            sizes: Table::new(9),
            extras: Table::new(10),
            strings: Table::new(11),
            texts: Table::new(12),
            calls: 0,
        }
    }

    /// Number and place of the port's answer.
    pub fn ask(&mut self, call: Call, text: &[u8], lengths: &Lengths, care: Care) -> (u32, u32) {
        let told = self.call(call, text, lengths, care);
        (told as u32, (told >> 32) as u32)
    }

    /// The number alone, for its time: few cells are filled before.
    pub fn time(&mut self, call: Call, text: &[u8]) -> u32 {
        self.call(call, text, &FIXED, Care::Near(0)) as u32
    }

    fn call(&mut self, call: Call, text: &[u8], lengths: &Lengths, care: Care) -> u64 {
        self.calls += 1;
        let (l, n) = (lengths, self.calls);
        let function = match call {
            Call::Parse => port::pg_parse,
            Call::Cue => port::pg_bytes_to_cue,
        };
        function(
            text,
            self.nodes.lend(l, care, n),
            self.attrs.lend(l, care, n),
            self.head.lend(l, care, n),
            self.params.lend(l, care, n),
            self.styles.lend(l, care, n),
            self.regions.lend(l, care, n),
            self.cues.lend(l, care, n),
            self.times.lend(l, care, n),
            self.segments.lend(l, care, n),
            self.sizes.lend(l, care, n),
            self.extras.lend(l, care, n),
            self.strings.lend(l, care, n),
            self.texts.lend(l, care, n),
        )
    }

    /// The first cell that is not what it must be, after `ask` with the same lengths and care.
    pub fn wrong(&self, lengths: &Lengths, care: Care, must: &Cells) -> Option<Wrong> {
        let (l, n) = (lengths, self.calls);
        let tables = [
            self.nodes.wrong(l, care, n, &must.tree.nodes),
            self.attrs.wrong(l, care, n, &must.tree.attrs),
            self.head.wrong(l, care, n, &must.head),
            self.params.wrong(l, care, n, &must.params),
            self.styles.wrong(l, care, n, &must.styles),
            self.regions.wrong(l, care, n, &must.regions),
            self.cues.wrong(l, care, n, &must.cues),
            self.times.wrong(l, care, n, &must.times),
            self.segments.wrong(l, care, n, &must.segments),
            self.sizes.wrong(l, care, n, &must.sizes),
            self.extras.wrong(l, care, n, &must.extras),
            self.strings.wrong(l, care, n, &must.tree.strings),
            self.texts.wrong(l, care, n, &must.texts),
        ];
        tables.into_iter().flatten().next()
    }

    /// The track that they hold, to be handed on.
    pub fn handed(&self) -> Handed<'_> {
        let l = &FIXED;
        Handed {
            head: self.head.lent(l),
            params: self.params.lent(l),
            styles: self.styles.lent(l),
            regions: self.regions.lent(l),
            cues: self.cues.lent(l),
            times: self.times.lent(l),
            segments: self.segments.lent(l),
            sizes: self.sizes.lent(l),
            extras: self.extras.lent(l),
            strings: self.strings.lent(l),
            texts: self.texts.lent(l),
        }
    }
}
