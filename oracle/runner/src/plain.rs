//! Plain tracks, and what is asked of them: document 01, "Limits and what is turned away". Cues in the Rust's types.

use reference::ir::{Segment, SubtitleCue};

/// What keeps a track from being plain, besides a number.
#[derive(Clone, Copy, Debug, PartialEq, PartialOrd, Eq, Ord)]
pub enum Flaw {
    Collapses,
    Strike,
    Timestamp,
    EmptyText,
    AdjacentTexts,
    /// A font without family and size that has exactly one child.
    BareFontOfOne,
    /// Such a font as a cue's only segment.
    BareFontAlone,
}

/// The flaws of a cue, each once.
pub fn flaws(cue: &SubtitleCue, preserve: bool) -> Vec<Flaw> {
    let mut flaws = Vec::new();
    if !preserve {
        flaws.push(Flaw::Collapses);
    }
    if let [only] = &cue.segments[..]
        && is_bare(only)
    {
        flaws.push(Flaw::BareFontAlone);
    }
    of_segments(&cue.segments, &mut flaws);
    flaws.sort();
    flaws.dedup();
    flaws
}

fn is_bare(segment: &Segment) -> bool {
    matches!(segment, Segment::Font { family: None, size: None, .. })
}

fn of_segments(segments: &[Segment], flaws: &mut Vec<Flaw>) {
    let text = |segment: &Segment| matches!(segment, Segment::Text(_));
    if segments.windows(2).any(|pair| text(&pair[0]) && text(&pair[1])) {
        flaws.push(Flaw::AdjacentTexts);
    }
    for segment in segments {
        match segment {
            Segment::Text(text) if text.is_empty() => flaws.push(Flaw::EmptyText),
            Segment::Timestamp { .. } => flaws.push(Flaw::Timestamp),
            Segment::Strike(_) => flaws.push(Flaw::Strike),
            _ => {}
        }
        if is_bare(segment) && inside(segment).len() == 1 {
            flaws.push(Flaw::BareFontOfOne);
        }
        of_segments(inside(segment), flaws);
    }
}

fn inside(segment: &Segment) -> &[Segment] {
    match segment {
        Segment::Bold(children)
        | Segment::Italic(children)
        | Segment::Underline(children)
        | Segment::Strike(children) => children,
        Segment::Color { children, .. } | Segment::Font { children, .. } => children,
        _ => &[],
    }
}

/// The cue that comes back: its times raised to 0 if negative, then rounded down to whole milliseconds.
pub fn back(cue: &SubtitleCue) -> SubtitleCue {
    let time = |us: i64| us.max(0) / 1_000 * 1_000;
    SubtitleCue { start_us: time(cue.start_us), end_us: time(cue.end_us), ..cue.clone() }
}
