//! Which ids a query reaches, in the order of their first visit, and which sizes are past their limits: documents 01 and
//! 02, written apart from the port and from the Rust.

use crate::answer::Answer;
use crate::extras::{REGION, value_of};
use crate::layers::decimals::{SIZES, decimal};
use crate::tables::with;
use reference::ir::SubtitleTrack;
use std::collections::{HashMap, HashSet};

/// What is asked of a track.
#[derive(Clone, Copy)]
pub enum Question<'a> {
    Value(&'a [u8]),
    Region(&'a [u8]),
    Cue(usize),
}

/// What refers to what in a track. Of equal names the first counts; of chains the first that is not empty.
pub struct Reach<'a> {
    names: HashSet<&'a str>,
    chains: HashMap<&'a str, &'a str>,
    regions: HashMap<&'a str, &'a str>,
    /// Region and style of each cue.
    cues: Vec<(Option<&'a str>, Option<&'a str>)>,
}

impl<'a> Reach<'a> {
    pub fn new(track: &'a SubtitleTrack) -> Reach<'a> {
        let first = |prefix| {
            let mut map = HashMap::new();
            for (id, value) in with(track, prefix) {
                map.entry(id).or_insert(value);
            }
            map
        };
        let regions: HashMap<&str, &str> = first("ttml_cue_region.");
        let cue = |(at, style): (usize, Option<&'a str>)| (regions.get(at.to_string().as_str()).copied(), style);
        Reach {
            names: track.styles.iter().map(|style| style.name.as_str()).collect(),
            chains: first("ttml_style_ref."),
            regions: first("ttml_region."),
            cues: track.cues.iter().map(|cue| cue.style_ref.as_deref()).enumerate().map(cue).collect(),
        }
    }

    /// The values whose ids a question visits, one after the other; a cue's region comes first.
    pub fn values(&self, question: &Question) -> Vec<String> {
        let own = match question {
            Question::Value(value) => Some(text(value)),
            Question::Region(_) => None,
            Question::Cue(at) => self.cues.get(*at).and_then(|cue| cue.1),
        };
        self.region_value(question, "style").into_iter().chain(own.map(String::from)).collect()
    }

    /// The ids of a question, going on from the first value's list with the second.
    pub fn ids(&self, question: &Question) -> Vec<String> {
        let mut ids = Ids::default();
        for value in self.values(question) {
            ids.visit(&value, &self.chains);
        }
        ids.order
    }

    /// Does one of these name a style?
    pub fn named(&self, ids: &[String]) -> bool {
        ids.iter().any(|id| self.names.contains(id.as_str()))
    }

    /// Has the region of the question a size that is past the limits? The Rust parses its leading digits and points.
    pub fn beyond(&self, question: &Question) -> bool {
        let Some(value) = self.region_value(question, "tts:fontSize") else { return false };
        let end = value.find(|c: char| !c.is_ascii_digit() && c != '.').unwrap_or(value.len());
        matches!(decimal::<f32>(&value[..end], SIZES), Answer::Number(14))
    }

    /// An attribute of the region that a question is about, if there is one.
    fn region_value(&self, question: &Question, name: &str) -> Option<String> {
        let id = match question {
            Question::Value(_) => return None,
            Question::Region(id) => text(id),
            Question::Cue(at) => self.cues.get(*at)?.0?,
        };
        value_of(self.regions.get(id)?, REGION, name)
    }
}

#[derive(Default)]
struct Ids {
    order: Vec<String>,
    seen: HashSet<String>,
}

impl Ids {
    /// The ids of a value, each followed by those of its chain, if it was not visited before.
    fn visit(&mut self, value: &str, chains: &HashMap<&str, &str>) {
        let mut open = vec![value.split_whitespace()];
        while let Some(words) = open.last_mut() {
            let Some(id) = words.next() else {
                open.pop();
                continue;
            };
            if self.seen.insert(id.to_string()) {
                self.order.push(id.to_string());
                open.extend(chains.get(id).map(|chain| chain.split_whitespace()));
            }
        }
    }
}

/// The text of a question that is put to the Rust.
pub fn text(bytes: &[u8]) -> &str {
    str::from_utf8(bytes).expect("the Rust is asked texts alone")
}
