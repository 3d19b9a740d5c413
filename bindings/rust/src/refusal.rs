//! Why something was refused, and where to look.

use std::error::Error;
use std::fmt;

/// Document 01's numbers; docs/REFUSALS.md has an example and a cure for each. Later libraries may know more of them.
#[derive(Clone, Copy, Debug, PartialEq, Eq, Hash)]
#[repr(u32)]
#[non_exhaustive]
pub enum Reason {
    /// A number that this crate does not know: the library that is linked is a later one. [`Refusal::number`] tells it.
    Unknown = 0,
    /// A lent table is shorter than its fixed length. [`Tables`](crate::Tables) never are.
    ShortTable = 1,
    /// The text is longer than 65,536 bytes.
    LongText = 2,
    /// The text is not UTF-8; at the end of its longest valid beginning.
    NotUtf8 = 3,
    /// A 65th element is open; at its `<`.
    Deep = 4,
    /// An 8,193rd node begins; at its first byte.
    ManyNodes = 5,
    /// A tag has no name; at its `<`.
    NoName = 6,
    /// An 8,193rd attribute begins; at its first byte.
    ManyAttributes = 7,
    /// A `/` in a start tag is not followed by `>`; at the `/`.
    StraySlash = 8,
    /// The text ends after an attribute's `=`; at the `=`.
    NoValue = 9,
    /// The text ends inside a start tag; at its end.
    OpenStartTag = 10,
    /// A close tag has no `>`; at its `<`.
    OpenCloseTag = 11,
    /// No top-level tt, or for a single cue no p.
    NoRoot = 12,
    /// A style, region, parameter, cue or segment is past its limit; at its element.
    ManyRows = 13,
    /// A number has too many digits, an exponent, or is inf or nan; at its attribute.
    Digits = 14,
    /// A fraction of a second or a colour is cut inside a character; at its attribute.
    CutCharacter = 15,
    /// A sum or product of times is beyond 64 bits; at its element.
    TimeOverflow = 16,
    /// The tables that were handed in hold no track.
    NoTrack = 17,
    /// The output is longer than what was lent, or than 65,536.
    NoRoom = 18,
}

use Reason::*;

const REASONS: [Reason; 18] = [
    ShortTable, LongText, NotUtf8, Deep, ManyNodes, NoName, ManyAttributes, StraySlash, NoValue, OpenStartTag,
    OpenCloseTag, NoRoot, ManyRows, Digits, CutCharacter, TimeOverflow, NoTrack, NoRoom,
];

impl Reason {
    /// In words.
    pub fn cause(self) -> &'static str {
        match self {
            Unknown => "refused, for a reason that this crate does not know",
            ShortTable => "a lent table is shorter than its fixed length",
            LongText => "the text is longer than 65,536 bytes",
            NotUtf8 => "the text is not UTF-8 from here on",
            Deep => "this element stands inside 64 others",
            ManyNodes => "the text has more than 8,192 elements, texts and sections",
            NoName => "this tag has no name",
            ManyAttributes => "the text has more than 8,192 attributes",
            StraySlash => "no `>` follows this `/` in a start tag",
            NoValue => "the text ends after this `=`",
            OpenStartTag => "the text ends inside a start tag",
            OpenCloseTag => "this close tag has no `>`",
            NoRoot => "there is no tt at top level (of a single cue: no p)",
            ManyRows => "there are more styles, regions, parameters, cues or segments than the tables hold",
            Digits => "this attribute has a number with too many digits, with an exponent, or inf or nan",
            CutCharacter => "this attribute's fraction of a second, or its colour, is cut inside a character",
            TimeOverflow => "a time of this element is beyond 64 bits",
            NoTrack => "what was handed in is no track",
            NoRoom => "the output is longer than the room for it, or than 65,536",
        }
    }

    /// What to do about it.
    pub fn cure(self) -> &'static str {
        match self {
            Unknown => "look the number up in docs/REFUSALS.md of the library that is linked",
            ShortTable => "lend tables of the lengths of `Tables`",
            LongText => "split the film",
            NotUtf8 => "save the file as UTF-8",
            Deep => "close elements earlier, or nest fewer",
            ManyNodes => "split the film, or put fewer spans and breaks into it",
            NoName => "write &lt; for a `<` that is text, or give the tag its name",
            ManyAttributes => "split the film, or put attributes that repeat into a style",
            StraySlash => "put the value in quote marks, or end the tag with `/>`",
            NoValue => "give the attribute its value and close the tag: the file may be cut short",
            OpenStartTag => "close the tag or the quote mark that is open: the file may be cut short",
            OpenCloseTag => "add the `>`: the file may be cut short",
            NoRoot => "put the film into <tt> ... </tt>",
            ManyRows => "split the film: at most 256 styles, 256 regions, 64 parameters, 2,048 cues, 16,384 segments",
            Digits => "write the number with fewer digits: 15 for a time or a rate, 6 for a size",
            CutCharacter => "use ASCII letters and digits in the value",
            TimeOverflow => "write a smaller time",
            NoTrack => "hand in what `parse` filled, or tables that `check` takes",
            NoRoom => "lend more room, up to 65,536; a track that needs more is to be split",
        }
    }

    /// Does a reader that gives this reason name a place?
    fn names_place(self) -> bool {
        (NotUtf8 as u32..=TimeOverflow as u32).contains(&(self as u32)) && self != NoRoot
    }
}

/// A text or a track was refused: why, and where in the text.
///
/// ```
/// use postgarlic::{Reason, Tables};
///
/// let mut tables = Tables::new();
/// let refusal = tables.parse("<tt>\n  <body>\n    <p>é</p").unwrap_err();
/// assert_eq!((refusal.number(), refusal.place()), (11, 23));
/// assert_eq!(refusal.reason(), Reason::OpenCloseTag);
/// assert_eq!((refusal.line(), refusal.column()), (Some(3), Some(9)));
/// assert_eq!(refusal.to_string(), "line 3, column 9: this close tag has no `>` (number 11)");
/// assert_eq!(refusal.reason().cure(), "add the `>`: the file may be cut short");
/// ```
#[derive(Clone, Copy, Debug, PartialEq, Eq, Hash)]
pub struct Refusal {
    number: u32,
    reason: Reason,
    place: usize,
    position: Option<(usize, usize)>,
}

/// The numbers whose place is a cue of the track that was handed in, and no byte.
const OF_A_CUE: [u32; 2] = [21, 23];

/// What a call told, in its 64 bits: what it counts, or a refusal. `text` is what was read, empty if a track was handed in.
pub(crate) fn told(answer: u64, text: &[u8]) -> Result<usize, Refusal> {
    let (number, high) = (answer as u32, (answer >> 32) as usize);
    if number == 0 {
        return Ok(high);
    }
    let reason = REASONS.get(number as usize - 1).copied().unwrap_or(Unknown);
    let position = if reason.names_place() && !text.is_empty() { position(text, high) } else { None };
    Err(Refusal { number, reason, place: high, position })
}

/// Line and column, each from 1 on. What stands before a place that is answered is UTF-8.
fn position(text: &[u8], place: usize) -> Option<(usize, usize)> {
    let before = text.get(..place)?;
    let line = before.iter().filter(|&&b| b == b'\n').count();
    let begin = before.iter().rposition(|&b| b == b'\n').map_or(0, |at| at + 1);
    let column = before[begin..].iter().filter(|&&b| b & 0xC0 != 0x80).count();
    Some((line + 1, column + 1))
}

impl Refusal {
    /// Document 01's number, from 1 on.
    pub fn number(&self) -> u32 {
        self.number
    }

    /// The same as a name, [`Reason::Unknown`] if this crate has none for it.
    pub fn reason(&self) -> Reason {
        self.reason
    }

    /// Which byte of the text, from 0 on; 0 also if none is named, or if a track was handed in.
    pub fn place(&self) -> usize {
        self.place
    }

    /// The cue of the track that was handed in, from 0 on, if the number names one and no byte.
    pub fn cue(&self) -> Option<usize> {
        OF_A_CUE.contains(&self.number).then_some(self.place)
    }

    /// The line of the place, from 1 on, if one is named. Lines end at line feeds.
    pub fn line(&self) -> Option<usize> {
        self.position.map(|(line, _)| line)
    }

    /// The column of the place, in characters from 1 on, if one is named.
    pub fn column(&self) -> Option<usize> {
        self.position.map(|(_, column)| column)
    }
}

impl fmt::Display for Refusal {
    fn fmt(&self, f: &mut fmt::Formatter<'_>) -> fmt::Result {
        if let Some((line, column)) = self.position {
            write!(f, "line {line}, column {column}: ")?;
        }
        if let Some(cue) = self.cue() {
            write!(f, "cue {cue}: ")?;
        }
        write!(f, "{} (number {})", self.reason.cause(), self.number())
    }
}

impl Error for Refusal {}

#[cfg(test)]
mod tests {
    use super::*;

    /// What a later library answers is told and does not panic.
    #[test]
    fn unknown_numbers() {
        for number in 19..=40u32 {
            let refusal = told(u64::from(number) | 7 << 32, b"<tt>").unwrap_err();
            assert_eq!((refusal.number(), refusal.place(), refusal.reason()), (number, 7, Reason::Unknown));
            assert_eq!((refusal.line(), refusal.cue()), (None, (number == 21 || number == 23).then_some(7)));
            assert!(refusal.to_string().ends_with(&format!("(number {number})")));
        }
        assert!(told(21 | 2 << 32, b"").unwrap_err().to_string().starts_with("cue 2: "));
    }

    /// A place past the end of the text names no line.
    #[test]
    fn place_past_the_end() {
        assert_eq!(told(8 | 9 << 32, b"<tt>").unwrap_err().line(), None);
        assert_eq!(told(8 | 4 << 32, b"<tt>").unwrap_err().column(), Some(5));
    }
}
