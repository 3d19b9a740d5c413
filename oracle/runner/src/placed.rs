//! A track whose strings have their places in the text, as document 01 says it of a text; and the same in the Rust's
//! types, without places.

use crate::extras::{INLINE, Names, REGION, STYLE, join};
use reference::ir::{self, SubtitleCue, SubtitleStyle, SubtitleTrack, TextAlign};

/// A string, and where it stands in the port's tables.
#[derive(Clone, Debug, PartialEq)]
pub struct Placed {
    pub place: usize,
    pub string: String,
}

/// Numbers of names in their list, rising, and values.
pub type Extras = Vec<(usize, Placed)>;

#[derive(Default)]
pub struct Track {
    pub lang: Option<Placed>,
    /// Names without their prefix, and values.
    pub params: Vec<(Placed, Placed)>,
    pub styles: Vec<Style>,
    pub regions: Vec<Region>,
    pub cues: Vec<Cue>,
}

pub struct Style {
    pub name: Placed,
    /// Trimmed, and not empty.
    pub chain: Option<Placed>,
    pub color: Option<[u8; 4]>,
    pub back: Option<[u8; 4]>,
    pub family: Option<Placed>,
    pub size: Option<f32>,
    /// Bold, italic, underline, strike.
    pub flags: [bool; 4],
    pub align: TextAlign,
    pub extras: Extras,
}

pub struct Region {
    pub id: Placed,
    pub extras: Extras,
}

pub struct Cue {
    pub start: i64,
    pub end: i64,
    pub style: Option<Placed>,
    pub region: Option<Placed>,
    pub preserve: bool,
    pub segments: Vec<Segment>,
    pub extras: Extras,
}

pub enum Segment {
    Text(Placed),
    Break,
    Timestamp(i64),
    Wrapper(Wrapper, Vec<Segment>),
}

#[derive(Debug, PartialEq)]
pub enum Wrapper {
    Bold,
    Italic,
    Underline,
    Strike,
    Color([u8; 3]),
    Font { family: Option<Placed>, size: Option<f32> },
}

fn string(placed: &Option<Placed>) -> Option<String> {
    placed.as_ref().map(|placed| placed.string.clone())
}

impl Track {
    /// The track that the Rust's `parse` gives, but for its source and the text that it was read from.
    pub fn rust(&self) -> SubtitleTrack {
        let mut metadata = vec![("source_format".to_string(), "ttml".to_string())];
        let mut note = |key: &str, id: &str, value: &str| metadata.push((format!("{key}{id}"), value.to_string()));
        if let Some(lang) = &self.lang {
            note("xml:lang", "", &lang.string);
        }
        for (name, value) in &self.params {
            note("ttml_param.", &name.string, &value.string);
        }
        for style in &self.styles {
            if !style.extras.is_empty() {
                note("ttml_style_extra.", &style.name.string, &joined(&style.extras, STYLE));
            }
            if let Some(chain) = &style.chain {
                note("ttml_style_ref.", &style.name.string, &chain.string);
            }
        }
        for region in &self.regions {
            note("ttml_region.", &region.id.string, &joined(&region.extras, REGION));
        }
        for (at, cue) in self.cues.iter().enumerate() {
            let index = &at.to_string();
            if let Some(region) = &cue.region {
                note("ttml_cue_region.", index, &region.string);
            }
            if !cue.extras.is_empty() {
                note("ttml_p_extra.", index, &joined(&cue.extras, INLINE));
            }
            if cue.preserve {
                note("ttml_cue_xml_space.", index, "preserve");
            }
        }
        SubtitleTrack {
            styles: self.styles.iter().map(Style::rust).collect(),
            cues: self.cues.iter().map(Cue::rust).collect(),
            metadata,
            ..SubtitleTrack::default()
        }
    }
}

/// As the Rust joins them.
fn joined(extras: &Extras, names: Names) -> String {
    let pairs: Vec<_> = extras.iter().map(|(number, value)| (*number, value.string.clone())).collect();
    join(&pairs, names).expect("the numbers rise")
}

impl Style {
    fn rust(&self) -> SubtitleStyle {
        let [bold, italic, underline, strike] = self.flags;
        SubtitleStyle {
            primary_color: self.color.map(|[r, g, b, a]| (r, g, b, a)),
            back_color: self.back.map(|[r, g, b, a]| (r, g, b, a)),
            font_family: string(&self.family),
            font_size: self.size,
            bold,
            italic,
            underline,
            strike,
            align: self.align,
            ..SubtitleStyle::new(self.name.string.clone())
        }
    }
}

impl Cue {
    pub fn rust(&self) -> SubtitleCue {
        SubtitleCue {
            start_us: self.start,
            end_us: self.end,
            style_ref: string(&self.style),
            positioning: None,
            segments: in_rust(&self.segments),
        }
    }
}

fn in_rust(segments: &[Segment]) -> Vec<ir::Segment> {
    let one = |segment: &Segment| match segment {
        Segment::Text(text) => ir::Segment::Text(text.string.clone()),
        Segment::Break => ir::Segment::LineBreak,
        Segment::Timestamp(offset_us) => ir::Segment::Timestamp { offset_us: *offset_us },
        Segment::Wrapper(wrapper, inside) => {
            let children = in_rust(inside);
            match wrapper {
                Wrapper::Bold => ir::Segment::Bold(children),
                Wrapper::Italic => ir::Segment::Italic(children),
                Wrapper::Underline => ir::Segment::Underline(children),
                Wrapper::Strike => ir::Segment::Strike(children),
                Wrapper::Color(rgb) => ir::Segment::Color { rgb: (*rgb).into(), children },
                Wrapper::Font { family, size } => ir::Segment::Font { family: string(family), size: *size, children },
            }
        }
    };
    segments.iter().map(one).collect()
}
