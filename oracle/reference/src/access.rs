//! A child module of the Rust's `ttml`, so that other crates can call what is private there.

use crate::ir::SubtitleTrack;
use oxideav_core::{Result, SubtitleCue, SubtitleStyle};

macro_rules! pass_on {
    ($(fn $name:ident($($arg:ident: $type:ty),*) -> $answer:ty;)*) => {
        $(pub fn $name($($arg: $type),*) -> $answer { super::$name($($arg),*) })*
    };
}

pass_on! {
    fn decode_entities(s: &str) -> String;
    fn lookup_entity(name: &str) -> Option<char>;
    fn escape_text(s: &str) -> String;
    fn escape_attr(s: &str) -> String;
    fn find_seq(haystack: &[u8], from: usize, needle: &[u8]) -> Option<usize>;
    fn tag_local(name: &str) -> String;
    fn strip_ns(name: &str) -> &str;
    fn format_ts(us: i64) -> String;
    fn parse_ttml_color_rgba(s: &str) -> Option<(u8, u8, u8, u8)>;
    fn bytes_to_cue(bytes: &[u8]) -> Result<SubtitleCue>;
    fn cue_to_bytes(cue: &SubtitleCue) -> Vec<u8>;
}

/// The names of the attributes that are kept as they were, in the order in which they are written.
pub const STYLE_EXTRA_ORDER: &[&str] = super::STYLE_EXTRA_ORDER;
pub const REGION_ATTR_ORDER: &[&str] = super::REGION_ATTR_ORDER;
pub const P_INLINE_EXTRA_ORDER: &[&str] = super::P_INLINE_EXTRA_ORDER;

pub fn parse_ttml_time(s: &str, frame_rate: Option<f64>, tick_rate: Option<f64>) -> Option<i64> {
    super::parse_ttml_time(s, &super::TimingCtx { frame_rate, tick_rate })
}

/// A node of the Rust's tree, whose own types are not public.
#[derive(Clone, Debug, PartialEq)]
pub enum Tree {
    Element { name: String, attrs: Vec<(String, String)>, children: Vec<Tree> },
    Text(String),
}

pub fn parse_xml(src: &str) -> Result<Vec<Tree>> {
    fn shown(nodes: Vec<super::Node>) -> Vec<Tree> {
        let tree = |node| match node {
            super::Node::Text(text) => Tree::Text(text),
            super::Node::Element(e) => {
                Tree::Element { name: e.name, attrs: e.attrs, children: shown(e.children) }
            }
        };
        nodes.into_iter().map(tree).collect()
    }
    super::parse_xml(src).map(shown)
}

/// The same for its time alone: the Rust's tree is made and dropped. How many nodes it has at top level.
pub fn reads_xml(src: &str) -> Option<usize> {
    super::parse_xml(src).ok().map(|nodes| nodes.len())
}

/// The ids that the Rust visits for a value, as it fills its `visited`: the loop of `resolve_referenced_style`, whose own list is lost.
pub fn visited(track: &SubtitleTrack, style_ref: &str) -> Vec<String> {
    let mut visited = Vec::new();
    let mut style = SubtitleStyle::new(style_ref);
    for id in style_ref.split_whitespace() {
        super::apply_style_ref(track, id, &mut style, &mut visited);
    }
    visited
}
