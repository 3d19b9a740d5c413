//! A stand-in for the crate `oxideav_core`, which the Rust leans on and which is not published with it:
//! the types, with the fields that the three source files use, and no behaviour of its own but
//! `SubtitleStyle::new`, which document 01 describes.

/// What went wrong, in words. Answers are compared by whether there is an error, not by its words.
#[derive(Clone, Debug, PartialEq)]
pub struct Error(pub String);

pub type Result<T> = std::result::Result<T, Error>;

impl Error {
    pub fn invalid(what: impl Into<String>) -> Error {
        Error(what.into())
    }
}

#[derive(Clone, Copy, Debug, Default, PartialEq)]
pub enum TextAlign {
    #[default]
    Start,
    Center,
    End,
    Left,
    Right,
}

#[derive(Clone, Debug, Default, PartialEq)]
pub struct SubtitleStyle {
    pub name: String,
    pub font_family: Option<String>,
    pub font_size: Option<f32>,
    pub primary_color: Option<(u8, u8, u8, u8)>,
    pub outline_color: Option<(u8, u8, u8, u8)>,
    pub back_color: Option<(u8, u8, u8, u8)>,
    pub outline: Option<f32>,
    pub shadow: Option<f32>,
    pub bold: bool,
    pub italic: bool,
    pub underline: bool,
    pub strike: bool,
    pub align: TextAlign,
}

impl SubtitleStyle {
    /// A style that `style_is_unstyled` accepts.
    pub fn new(name: impl Into<String>) -> SubtitleStyle {
        SubtitleStyle { name: name.into(), ..SubtitleStyle::default() }
    }
}

#[derive(Clone, Debug, PartialEq)]
pub enum Segment {
    Text(String),
    LineBreak,
    Bold(Vec<Segment>),
    Italic(Vec<Segment>),
    Underline(Vec<Segment>),
    Strike(Vec<Segment>),
    Color { rgb: (u8, u8, u8), children: Vec<Segment> },
    Font { family: Option<String>, size: Option<f32>, children: Vec<Segment> },
    Voice { children: Vec<Segment> },
    Class { children: Vec<Segment> },
    Karaoke { children: Vec<Segment> },
    Timestamp { offset_us: i64 },
    Raw(String),
}

/// Never made by the reader of TTML: its cues have none.
#[derive(Clone, Debug, PartialEq)]
pub struct CuePosition;

#[derive(Clone, Debug, PartialEq)]
pub struct SubtitleCue {
    pub start_us: i64,
    pub end_us: i64,
    pub style_ref: Option<String>,
    pub positioning: Option<CuePosition>,
    pub segments: Vec<Segment>,
}

// The codec factories name these; nothing here calls them.
pub struct CodecParameters;
pub trait Decoder {}
pub trait Encoder {}
