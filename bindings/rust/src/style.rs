//! Styles: those of the head, and what a query makes of them.

use crate::Extras;
use crate::refusal::{Reason, Refusal, told};
use crate::tables::{Tables, part};
use std::fmt;

/// What a style says.
#[derive(Clone, Copy, Debug, PartialEq)]
pub struct Style<'a> {
    /// Its name: of a query the text that was asked for, trimmed, or the region's id.
    pub name: &'a str,
    /// The colour of the text.
    pub color: Option<Color>,
    /// The colour behind it.
    pub background: Option<Color>,
    /// The font's family.
    pub family: Option<&'a str>,
    /// The font's size.
    pub size: Option<Size>,
    /// Bold.
    pub bold: bool,
    /// Italic.
    pub italic: bool,
    /// Underlined.
    pub underline: bool,
    /// Struck through.
    pub strike: bool,
    /// How the text is aligned.
    pub align: Align,
}

/// A style of the head: what it says itself, and what else its element has.
#[derive(Clone, Debug)]
pub struct HeadStyle<'t> {
    /// What it says.
    pub style: Style<'t>,
    /// The ids of its parents, which [`resolve_referenced_style`](crate::Track::resolve_referenced_style) follows.
    pub chain: Option<&'t str>,
    extras: Extras<'t>,
}

impl<'t> HeadStyle<'t> {
    /// The attributes that are kept as they were.
    pub fn extras(&self) -> Extras<'t> {
        self.extras.clone()
    }
}

/// What a query answers.
#[derive(Clone, Debug, PartialEq)]
pub struct Resolved<'a> {
    /// The style, if one was found.
    pub style: Option<Style<'a>>,
    /// The ids that were reached, each once, in the order of their first visit: an id, then its parents from left to right, each
    /// followed out fully. For a cue those of its region come first, then those of its style that are new.
    ///
    /// ```
    /// let mut tables = postgarlic::Tables::new();
    /// let track = tables.parse(
    ///     "<tt><head><styling><style xml:id='a' style='c b'/><style xml:id='b' style='d'/></styling>
    ///         <layout><region xml:id='r' style='b e'/></layout></head><body><p region='r' style='a d'/></body></tt>",
    /// )?;
    /// assert_eq!(track.resolve_referenced_style("a d")?.ids, ["a", "c", "b", "d"]);
    /// assert_eq!(track.region_style("r")?.ids, ["b", "d", "e"]);
    /// assert_eq!(track.effective_style_for_cue_index(0)?.ids, ["b", "d", "e", "a", "c"]);
    /// # Ok::<(), postgarlic::Refusal>(())
    /// ```
    pub ids: Vec<&'a str>,
}

/// A colour.
#[derive(Clone, Copy, Debug, PartialEq, Eq, Hash)]
pub struct Color {
    /// Red.
    pub red: u8,
    /// Green.
    pub green: u8,
    /// Blue.
    pub blue: u8,
    /// How opaque: 255 is all.
    pub alpha: u8,
}

/// A font size, with its spelling: `digits` with a point before the last `scale` of them.
///
/// ```
/// let size = postgarlic::Size { value: -0.05, negative: true, digits: 5, scale: 2 };
/// assert_eq!(size.to_string(), "-0.05");
/// ```
#[derive(Clone, Copy, Debug, PartialEq)]
pub struct Size {
    /// The number.
    pub value: f32,
    /// Whether it has a minus; zero may have one.
    pub negative: bool,
    /// Its digits as a whole number.
    pub digits: u32,
    /// How many of them stand behind the point.
    pub scale: u32,
}

/// How text is aligned.
#[derive(Clone, Copy, Debug, Default, PartialEq, Eq, Hash)]
#[non_exhaustive]
pub enum Align {
    /// Where a line starts.
    #[default]
    Start,
    /// In the middle.
    Center,
    /// Where a line ends.
    End,
    /// At the left.
    Left,
    /// At the right.
    Right,
}

impl fmt::Display for Size {
    /// As it is written: what `{}` prints for `value`.
    fn fmt(&self, f: &mut fmt::Formatter<'_>) -> fmt::Result {
        let digits = format!("{:0width$}", self.digits, width = self.scale as usize + 1);
        let (whole, behind) = digits.split_at(digits.len() - self.scale as usize);
        write!(f, "{}{whole}", if self.negative { "-" } else { "" })?;
        if behind.is_empty() { Ok(()) } else { write!(f, ".{behind}") }
    }
}

fn color(cells: &[u32]) -> Option<Color> {
    let [red, green, blue, alpha] = [1, 2, 3, 4].map(|cell| cells[cell] as u8);
    (cells[0] != 0).then_some(Color { red, green, blue, alpha })
}

/// The size of a sign, 0 for none and 2 for a minus, digits and scale.
pub(crate) fn size(cells: &[u32], value: f32) -> Option<Size> {
    (cells[0] != 0).then_some(Size { value, negative: cells[0] == 2, digits: cells[1], scale: cells[2] })
}

fn align(cell: u32) -> Align {
    [Align::Start, Align::Center, Align::End, Align::Left, Align::Right][cell as usize]
}

/// The style of a row of the head.
pub(crate) fn head_style<'t>(tables: &'t Tables, row: usize, extras: Extras<'t>) -> HeadStyle<'t> {
    let cells = &tables.styles[27 * row..][..27];
    let [bold, italic, underline, strike] = [20, 21, 22, 23].map(|cell| cells[cell] != 0);
    let style = Style {
        name: tables.string(cells),
        color: color(&cells[4..]),
        background: color(&cells[9..]),
        family: tables.optional(&cells[14..]),
        size: size(&cells[17..], tables.sizes[row]),
        bold,
        italic,
        underline,
        strike,
        align: align(cells[24]),
    };
    let chain = tables.string(&cells[2..]);
    HeadStyle { style, chain: (!chain.is_empty()).then_some(chain), extras }
}

/// Cells of the table of ids for each id.
const ID: usize = 4;
/// More ids than these are never reached.
const IDS: usize = 65_536;

/// Asks a query with more and more room for ids.
pub(crate) fn resolve<'a>(
    tables: &'a Tables,
    text: &'a str,
    query: impl Fn(&mut [u32], &mut [u64], &mut [f32]) -> u64,
) -> Result<Resolved<'a>, Refusal> {
    let mut ids = vec![0; 64 * ID];
    let (mut out, mut size) = ([0; 27], [0.0]);
    loop {
        match told(query(&mut ids, &mut out, &mut size), &[]) {
            Err(refusal) if refusal.reason() == Reason::NoRoom && ids.len() < IDS * ID => {
                ids = vec![0; IDS.min(ids.len() / ID * 16) * ID];
            }
            told => {
                told?;
                return Ok(resolved(tables, text, &ids, out.map(|cell| cell as u32), size[0]));
            }
        }
    }
}

/// What the cells and the float of an answer say.
fn resolved<'a>(tables: &'a Tables, text: &'a str, ids: &[u32], out: [u32; 27], value: f32) -> Resolved<'a> {
    let [bold, italic, underline, strike] = [22, 23, 24, 25].map(|cell| out[cell] != 0);
    let style = Style {
        name: part(text.as_bytes(), out[3], out[4]),
        color: color(&out[5..]),
        background: color(&out[10..]),
        family: tables.optional(&out[15..]),
        size: (out[18] != 0).then_some(Size { value, negative: out[19] != 0, digits: out[20], scale: out[21] }),
        bold,
        italic,
        underline,
        strike,
        align: align(out[26]),
    };
    let id = |row: &[u32]| if row[0] == 0 { part(text.as_bytes(), row[1], row[2]) } else { tables.string(&row[1..]) };
    let ids = ids.chunks(ID).take(out[2] as usize).map(id).collect();
    Resolved { style: (out[1] != 0).then_some(style), ids }
}
