//! A track of the Rust crate `postgarlic` as the Rust's own track, by the crate's public functions alone.

use oxideav_core::{Segment, SubtitleCue, SubtitleStyle, TextAlign};
use postgarlic::{Align, Color, Cue, Extras, Segments, Size, Style, Track};
use reference::ir::SubtitleTrack;
use reference::ttml::access::escape_attr;

/// The Rust's track, with its metadata in the order of the Rust's `parse`.
pub fn track(track: Track) -> SubtitleTrack {
    let mut rust = SubtitleTrack::default();
    let metadata = &mut rust.metadata;
    let mut keep = |key: String, value: &str| metadata.push((key, value.to_string()));
    keep("source_format".into(), "ttml");
    if let Some(lang) = track.lang() {
        keep("xml:lang".into(), lang);
    }
    for param in track.params() {
        keep(format!("ttml_param.{}", param.name), param.value);
    }
    for head in track.styles() {
        if head.extras().len() > 0 {
            keep(format!("ttml_style_extra.{}", head.style.name), &joined(head.extras()));
        }
        if let Some(chain) = head.chain {
            keep(format!("ttml_style_ref.{}", head.style.name), chain);
        }
        rust.styles.push(style(head.style));
    }
    for region in track.regions() {
        keep(format!("ttml_region.{}", region.id), &joined(region.attributes()));
    }
    for one in track.cues() {
        if let Some(region) = one.region() {
            keep(format!("ttml_cue_region.{}", one.index()), region);
        }
        if one.extras().len() > 0 {
            keep(format!("ttml_p_extra.{}", one.index()), &joined(one.extras()));
        }
        if one.preserves_space() {
            keep(format!("ttml_cue_xml_space.{}", one.index()), "preserve");
        }
        rust.cues.push(cue(one));
    }
    rust
}

pub fn cue(cue: Cue) -> SubtitleCue {
    SubtitleCue {
        start_us: cue.begin(),
        end_us: cue.end(),
        style_ref: cue.style().map(String::from),
        positioning: None,
        segments: segments(cue.segments()),
    }
}

pub fn style(style: Style) -> SubtitleStyle {
    let mut rust = SubtitleStyle::new(style.name);
    rust.primary_color = style.color.map(color);
    rust.back_color = style.background.map(color);
    rust.font_family = style.family.map(String::from);
    rust.font_size = style.size.map(size);
    (rust.bold, rust.italic) = (style.bold, style.italic);
    (rust.underline, rust.strike) = (style.underline, style.strike);
    rust.align = match style.align {
        Align::Start => TextAlign::Start,
        Align::Center => TextAlign::Center,
        Align::End => TextAlign::End,
        Align::Left => TextAlign::Left,
        Align::Right => TextAlign::Right,
        other => unreachable!("{other:?}"),
    };
    rust
}

/// The f32 of a size, whose spelling is what `{}` prints for it.
fn size(size: Size) -> f32 {
    assert_eq!(size.to_string(), size.value.to_string());
    size.value
}

fn color(color: Color) -> (u8, u8, u8, u8) {
    (color.red, color.green, color.blue, color.alpha)
}

fn segments(segments: Segments) -> Vec<Segment> {
    segments.map(segment).collect()
}

fn segment(one: postgarlic::Segment) -> Segment {
    use postgarlic::Segment as Is;
    match one {
        Is::Text(text) => Segment::Text(text.to_string()),
        Is::Break => Segment::LineBreak,
        Is::Timestamp(offset_us) => Segment::Timestamp { offset_us },
        Is::Bold(children) => Segment::Bold(segments(children)),
        Is::Italic(children) => Segment::Italic(segments(children)),
        Is::Underline(children) => Segment::Underline(segments(children)),
        Is::Strike(children) => Segment::Strike(segments(children)),
        Is::Color { rgb: [r, g, b], children } => Segment::Color { rgb: (r, g, b), children: segments(children) },
        Is::Font { family, size: measure, children } => {
            Segment::Font { family: family.map(String::from), size: measure.map(size), children: segments(children) }
        }
        other => unreachable!("{other:?}"),
    }
}

/// As the Rust joins them.
fn joined(extras: Extras) -> String {
    let attrs: Vec<String> = extras.map(|(name, value)| format!("{name}=\"{}\"", escape_attr(value))).collect();
    attrs.join(" ")
}
