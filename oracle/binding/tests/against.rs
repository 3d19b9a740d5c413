//! The Rust crate `postgarlic` and the Rust on the same films: those of examples/films, and made ones, whole and damaged.
//!
//!     cargo test --offline --manifest-path oracle/Cargo.toml --package binding
//!
//! TTML_SOURCES names the folder of the Rust's sources, POSTGARLIC_LIB that of libttml.a, where they stand elsewhere than usual.

use postgarlic::{Cue, Refusal, Resolved, Tables, Track};
use reference::encoding::decode_subtitle_text;
use reference::ir::{Segment, SubtitleStyle, SubtitleTrack};
use reference::ttml::{self, access};
use std::panic::{AssertUnwindSafe, catch_unwind};

/// What the Rust answers: none if it stops.
fn stopping<A>(question: impl FnOnce() -> A) -> Option<A> {
    catch_unwind(AssertUnwindSafe(question)).ok()
}

/// What segments say, as their nesting tells it.
fn add_text(segments: &[Segment], out: &mut String) {
    for segment in segments {
        match segment {
            Segment::Text(text) => out.push_str(text),
            Segment::LineBreak => out.push('\n'),
            Segment::Bold(children)
            | Segment::Italic(children)
            | Segment::Underline(children)
            | Segment::Strike(children)
            | Segment::Color { children, .. }
            | Segment::Font { children, .. } => add_text(children, out),
            _ => {}
        }
    }
}

/// How the questions ended.
#[derive(Debug, Default)]
struct Count {
    same: usize,
    refused_by_both: usize,
    /// By a number that the Rust does not know.
    refused_here: usize,
}

impl Count {
    /// A refusal, and what the Rust answers: 6 and 8 to 12 are its errors, and it stops on 15 and 16.
    fn refused<A, E>(&mut self, refusal: Refusal, rust: Option<Result<A, E>>, about: &str) {
        match refusal.number() {
            6 | 8..=12 => assert!(matches!(rust, Some(Err(_))), "{refusal}, and the Rust takes it\n{about}"),
            15 | 16 => assert!(rust.is_none(), "{refusal}, and the Rust does not stop\n{about}"),
            _ => {
                self.refused_here += 1;
                return;
            }
        }
        self.refused_by_both += 1;
    }

    fn film(&mut self, tables: &mut Tables, text: &str) {
        if decode_subtitle_text(text.as_bytes()) != text {
            return;
        }
        let rust = stopping(|| ttml::parse(text.as_bytes()));
        match tables.parse(text) {
            Err(refusal) => self.refused(refusal, rust, text),
            Ok(track) => {
                let rust = rust.expect("the Rust stops").expect("the Rust refuses");
                self.track(track, &rust, text);
            }
        }
        let rust = stopping(|| access::bytes_to_cue(text.as_bytes()));
        match tables.parse_cue(text) {
            Err(refusal) => self.refused(refusal, rust, text),
            Ok(cue) => {
                assert_eq!(binding::cue(cue), rust.unwrap().unwrap(), "{text}");
                self.cue(cue, text);
            }
        }
    }

    fn track(&mut self, track: Track, rust: &SubtitleTrack, about: &str) {
        let ours = binding::track(track);
        assert_eq!(ours.styles, rust.styles, "{about}");
        assert_eq!(ours.cues, rust.cues, "{about}");
        assert_eq!(ours.metadata, rust.metadata, "{about}");
        let written = String::from_utf8(ttml::write(rust)).unwrap();
        match track.write() {
            Ok(ours) => assert_eq!(ours, written, "{about}"),
            Err(refusal) => assert!(refusal.number() == 18 && written.len() > 65_536, "{refusal}\n{about}"),
        }
        self.same += 2;
        for cue in track.cues() {
            self.cue(cue, about);
            let style = || ttml::effective_style_for_cue_index(rust, cue.index());
            self.style(cue.effective_style(), style, about);
            if let Some(value) = cue.style() {
                self.style(
                    track.resolve_referenced_style(value),
                    || ttml::resolve_referenced_style(rust, value),
                    about,
                );
            }
        }
        for style in track.styles() {
            let name = style.style.name;
            self.style(track.resolve_referenced_style(name), || ttml::resolve_referenced_style(rust, name), about);
        }
        for region in track.regions() {
            self.style(track.region_style(region.id), || ttml::region_style(rust, region.id), about);
        }
    }

    fn cue(&mut self, cue: Cue, about: &str) {
        let written = access::cue_to_bytes(&binding::cue(cue));
        assert_eq!(cue.write().unwrap().into_bytes(), written, "{about}");
        let mut text = String::new();
        add_text(&binding::cue(cue).segments, &mut text);
        assert_eq!(cue.text().unwrap(), text, "{about}");
        self.same += 2;
    }

    fn style(&mut self, ours: Result<Resolved, Refusal>, rust: impl FnOnce() -> Option<SubtitleStyle>, about: &str) {
        let rust = stopping(rust);
        match ours {
            Err(refusal) if refusal.number() == 14 => self.refused_here += 1,
            Err(refusal) => assert!(refusal.number() == 15 && rust.is_none(), "{refusal}\n{about}"),
            Ok(resolved) => {
                assert_eq!(Some(resolved.style.map(binding::style)), rust, "{about}");
                self.same += 1;
            }
        }
    }
}

/// Numbers that look random, the same in each run.
struct Dice(u64);

impl Dice {
    fn below(&mut self, n: usize) -> usize {
        self.0 = self.0.wrapping_mul(6_364_136_223_846_793_005).wrapping_add(1_442_695_040_888_963_407);
        ((self.0 >> 33) as usize) % n
    }

    fn of<'a>(&mut self, list: &[&'a str]) -> &'a str {
        list[self.below(list.len())]
    }

    /// Some attributes, their names and values from lists.
    fn attributes(&mut self, most: usize, names: &[&str], values: &[&str]) -> String {
        (0..self.below(most + 1)).map(|_| format!(" {}=\"{}\"", self.of(names), self.of(values))).collect()
    }
}

const TIMES: &[&str] = &[
    "1s", "500ms", "00:05", "00:00:01.5", "00:00:02:10", "-1s", "3", "", "2f", "40t", "1.5m", "0.001h",
    "00:00:01.1234567", "1e3s", "9999999999:00:00", "00:00:00.éééé", " 7s ", "+2s", "00:00:01.+5",
];
const LOOKS: &[&str] = &[
    "tts:color", "tts:backgroundColor", "tts:fontFamily", "tts:fontSize", "tts:fontWeight", "tts:fontStyle",
    "tts:textDecoration", "tts:textAlign", "tts:opacity", "tts:origin", "itts:fillLineGap", "TTS:COLOR", "xml:space",
    "style",
];
const VALUES: &[&str] = &[
    "red", "#0A0B0C", "#01020304", "#abc", "rgb(1,2,3)", "bold", "italic", "underline", "line-through", "center",
    "justify", "12px", "7.25", "-0.5em", "80%", "1234567px", "#aé", "a b", "&amp;&#65;&nbsp;", "s0 s1", "preserve",
    "default", "itts:", "",
];
const IDS: &[&str] = &["s0", "s1", "s2", "s3", "s0 s2", "r0", "r1", "nobody", " s1\u{A0}s3 ", ""];
const TEXTS: &[&str] =
    &["e4", " ", "  a\n b ", "x &lt; y", "é", "<![CDATA[ <z> ]]>", "<!--c-->", "&#x1F600;", "<br/>", "<b>q</b>"];

fn element(dice: &mut Dice, depth: usize) -> String {
    let inside = |dice: &mut Dice| -> String {
        (0..dice.below(4))
            .map(|_| match dice.below(3) {
                0 if depth < 5 => {
                    let begin =
                        if dice.below(3) == 0 { format!(" begin=\"{}\"", dice.of(TIMES)) } else { String::new() };
                    let looks = dice.attributes(3, LOOKS, VALUES);
                    format!("<span{begin}{looks}>{}</span>", element(dice, depth + 1))
                }
                _ => dice.of(TEXTS).to_string(),
            })
            .collect()
    };
    if depth > 0 {
        return inside(dice);
    }
    let times = dice.attributes(3, &["begin", "end", "dur"], TIMES);
    let refers = dice.attributes(2, &["style", "region"], IDS);
    let looks = dice.attributes(2, LOOKS, VALUES);
    format!("<p{times}{refers}{looks}>{}</p>", inside(dice))
}

fn film(dice: &mut Dice) -> String {
    let params = dice.attributes(
        3,
        &["ttp:frameRate", "ttp:tickRate", "ittp:activeArea", "xml:lang", "xml:space"],
        &["25", "0", "1e3", "x", "preserve"],
    );
    let mut film = format!("<?xml version=\"1.0\"?>\n<tt{params}><head><styling>");
    for n in 0..dice.below(5) {
        film += &format!("<style xml:id=\"s{n}\" style=\"{}\"{}/>", dice.of(IDS), dice.attributes(4, LOOKS, VALUES));
    }
    film += "</styling><layout>";
    for n in 0..dice.below(3) {
        film += &format!("<region id=\"r{n}\"{}/>", dice.attributes(4, LOOKS, VALUES));
    }
    film += "</layout></head><body>";
    for _ in 0..dice.below(4) {
        let container = dice.of(&["div", "div timeContainer=\"seq\"", "section"]);
        let times = dice.attributes(2, &["begin", "end", "dur"], TIMES);
        let cues: String = (0..dice.below(4)).map(|_| element(dice, 0)).collect();
        film += &format!("<{container}{times}>{cues}</{}>", container.split(' ').next().unwrap());
    }
    film + "</body></tt>"
}

/// Some characters of a text left out, doubled, or put in.
fn damaged(dice: &mut Dice, text: &str) -> String {
    let mut text: Vec<char> = text.chars().collect();
    for _ in 0..1 + dice.below(3) {
        let at = dice.below(text.len());
        match dice.below(3) {
            0 => drop(text.remove(at)),
            1 => text.insert(at, text[at]),
            _ => text.insert(at, ['<', '>', '/', '"', '=', '&', ' ', 'é'][dice.below(8)]),
        }
    }
    text.into_iter().collect()
}

/// The Rust stops on some films: that is not printed.
fn silence() {
    std::panic::set_hook(Box::new(|stop| {
        if !stop
            .location()
            .is_some_and(|place| place.file().ends_with("ttml.rs") || place.file().contains("library/core"))
        {
            eprintln!("{stop}");
        }
    }));
}

#[test]
fn the_same_as_the_rust() {
    silence();
    let mut tables = Tables::new();
    let mut count = Count::default();
    let films = concat!(env!("CARGO_MANIFEST_DIR"), "/../../examples/films");
    for entry in std::fs::read_dir(films).unwrap() {
        count.film(&mut tables, &std::fs::read_to_string(entry.unwrap().path()).unwrap());
    }
    let mut dice = Dice(1);
    for _ in 0..4_000 {
        let whole = film(&mut dice);
        let cue = element(&mut dice, 0);
        let damaged = damaged(&mut dice, &whole);
        for text in [whole, damaged, cue] {
            count.film(&mut tables, &text);
        }
    }
    println!("{count:?}");
    assert!(count.same > 10_000 && count.refused_by_both > 1_000 && count.refused_here > 100);
}
