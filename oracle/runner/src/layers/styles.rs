//! The three queries on handed tracks. The Rust reads a document; its track goes into the port's tables; both answer.
//! Which ids are visited, in which order, is the Rust's own `visited`; `reach.rs` says the same from documents 01 and 02, and
//! which sizes are past the limits.

use super::Layer;
use crate::answer::Answer;
use crate::bench::Bench;
use crate::cases::{Rng, SPACES};
use crate::compare::{Esc, Run};
use crate::query::{Asker, Outcome, Style};
use crate::record::{Lines, Recording};
use crate::reach::{Question, Reach, text};
use crate::sheets::{Sheet, any_sheet, any_value, attr};
use crate::handed::Lending;
use crate::tables::{BYTES, Tables, marks, shown, with};
use reference::ir::SubtitleTrack;
use reference::ttml;
use std::collections::HashSet;
use std::fmt::{self, Debug, Formatter};

pub const LAYER: Layer = Layer {
    name: "styles",
    compare,
    record: Some(Recording { file: "crates/replay_styles/stdin", count: 900, lines }),
    bench: Some(bench),
};

fn compare(run: &mut Run) {
    let side = &mut Side { tables: Tables::new(), asker: Asker::default() };
    for document in corners() {
        side.document(run, &document, |track| {
            let mut ids: Vec<String> = track.styles.iter().map(|style| style.name.clone()).collect();
            ids.extend(["", " ", "a b c d e", "e d c b a", "nobody", "\u{85}a\u{2003}b\u{3000}"].map(String::from));
            ids
        });
    }
    side.long(run);
    side.numbers(run);
    for _ in 0..run.count / 16 {
        let sheet = any_sheet(&mut run.rng);
        if sheet.text.len() <= BYTES {
            side.sheet(run, &sheet);
        }
    }
}

/// The port's side.
struct Side {
    tables: Tables,
    asker: Asker,
}

/// A question about a document in a report: what is long is cut.
struct Input<'a>(&'a str, &'a Question<'a>, usize);

impl Debug for Input<'_> {
    fn fmt(&self, f: &mut Formatter) -> fmt::Result {
        let Input(document, question, lent) = self;
        let cut = |bytes: &[u8]| match bytes.get(..1_000) {
            Some(start) => format!("{:?} .., {} bytes", Esc(start), bytes.len()),
            None => format!("{:?}", Esc(bytes)),
        };
        match question {
            Question::Value(value) => write!(f, "value {}", cut(value))?,
            Question::Region(id) => write!(f, "region {}", cut(id))?,
            Question::Cue(index) => write!(f, "cue {index}")?,
        }
        write!(f, " into {lent} cells, of {}", cut(document.as_bytes()))
    }
}

impl Side {
    /// Lays out a document's track, and holds what was laid out to it. Its text is one that is decoded unchanged.
    fn lay(&mut self, document: &str) -> Option<SubtitleTrack> {
        let track = ttml::parse(document.as_bytes()).ok()?;
        assert_eq!(Esc(&track.extradata), Esc(document.as_bytes()), "decoded otherwise");
        self.tables.lay(&track).unwrap_or_else(|unfit| panic!("{unfit:?} of {document:?}"));
        Some(track)
    }

    fn sheet(&mut self, run: &mut Run, sheet: &Sheet) {
        let track = self.lay(&sheet.text).expect("a sheet is read");
        if run.rng.below(32) == 0 {
            let back = self.tables.track().unwrap();
            assert_eq!(shown(&track), shown(&back), "the tables of {:?}", sheet.text);
        }
        let reach = &Reach::new(&track);
        for _ in 0..4 {
            let value = any_value(&mut run.rng, &sheet.ids, 6);
            self.question(run, &sheet.text, &track, reach, &Question::Value(value.as_bytes()));
            let id = &sheet.ids[run.rng.below(sheet.ids.len())];
            self.question(run, &sheet.text, &track, reach, &Question::Region(id.as_bytes()));
        }
        for cue in 0..sheet.cues + 1 {
            self.question(run, &sheet.text, &track, reach, &Question::Cue(cue));
        }
    }

    /// A listed document: values and ids that are asked of it, all cues, all regions.
    fn document(&mut self, run: &mut Run, document: &str, values: impl Fn(&SubtitleTrack) -> Vec<String>) {
        let track = self.lay(document).expect("a document is read");
        assert_eq!(shown(&track), shown(&self.tables.track().unwrap()), "the tables of {document:?}");
        let reach = &Reach::new(&track);
        for value in values(&track) {
            self.question(run, document, &track, reach, &Question::Value(value.as_bytes()));
            self.question(run, document, &track, reach, &Question::Region(value.as_bytes()));
        }
        for (id, _) in with(&track, "ttml_region.") {
            self.question(run, document, &track, reach, &Question::Region(id.as_bytes()));
        }
        for cue in (0..track.cues.len() + 2).chain([u32::MAX as usize, usize::MAX]) {
            self.question(run, document, &track, reach, &Question::Cue(cue));
        }
    }

    /// One question, with tables of ids that just fit, that lack a cell, and that are longer.
    fn question(&mut self, run: &mut Run, document: &str, track: &SubtitleTrack, reach: &Reach, question: &Question) {
        let rust = rust(track, reach, question);
        let count = match &rust {
            Outcome::Found { ids, style } => {
                // "That is the order in which the Rust fills `visited`."
                run.same("document 02", format_args!("{:?}", Input(document, question, 0)), ids.clone(), reach.ids(question));
                if let Question::Value(_) = question {
                    // "gives no style exactly if no id reachable through chains names one"
                    run.same("document 01", format_args!("{:?}", Input(document, question, 0)), style.is_some(), reach.named(ids));
                }
                ids.len()
            }
            Outcome::Number(_) => 0,
        };
        let more = run.rng.below(40);
        for lent in [4 * count, (4 * count).saturating_sub(1), 4 * count + more] {
            let rust = if lent < 4 * count { Outcome::Number(18) } else { rust.clone() };
            let lending = if more == 0 { Lending::Longer } else { Lending::Fixed };
            let port = self.asker.ask(&self.tables, lending, question, lent);
            run.same(name(question), format_args!("{:?}", Input(document, question, lent)), Ok(rust), port);
        }
    }

    /// Ids of every length, long values and long chains, up to the longest text.
    fn long(&mut self, run: &mut Run) {
        let rng = &mut Rng::new(run.rng.next(), "long");
        let words = |bytes: usize, word: &dyn Fn(usize) -> String| {
            let mut value = String::new();
            let mut at = 0;
            while value.len() < bytes {
                value += &word(at);
                at += 1;
            }
            let mut end = bytes;
            while !value.is_char_boundary(end) {
                end -= 1;
            }
            value.truncate(end);
            value + &"y".repeat(bytes - end)
        };
        for length in (0..600).chain([4_095, 4_096, 4_097, 60_000]) {
            let id = "x".repeat(length);
            let mut document = String::from("<tt><head><styling><style");
            attr(rng, &mut document, "xml:id", &id);
            document += " style='y' tts:fontWeight='bold'/></styling></head><body><p style='x'/></body></tt>";
            self.document(run, &document, |_| vec![id.clone(), format!("{id}x"), id.clone() + " " + &id]);
        }
        for bytes in [BYTES - 2, BYTES - 1, BYTES] {
            let values = [
                words(bytes, &|at| format!("{at:x} ")),
                words(bytes, &|at| format!("{} ", at % 3)),
                words(bytes, &|at| format!("x{at:05}\u{2003}")),
                words(bytes, &|_| "x".to_string()),
                words(bytes, &|_| " ".to_string()),
                words(bytes, &|at| format!("{}{}", char::from(b'a' + (at % 26) as u8), SPACES[5])),
            ];
            let document = "<tt><head><styling><style id='1' style='1f 2 3'/><style id='x' tts:color='red'/></styling></head></tt>";
            self.document(run, document, |_| values.to_vec());
        }
        for count in [255, 256] {
            for refer in [1, 2, 7] {
                let mut document = String::from("<tt><head><styling>");
                for at in 0..count {
                    let chain: Vec<String> = (1..=refer).map(|next| format!("s{}", at + next)).collect();
                    document += &format!("<style id='s{at}' style='{}' tts:fontSize='{at}px'/>", chain.join(" "));
                }
                document += "</styling></head></tt>";
                self.document(run, &document, |_| vec!["s0".into(), "s255".into(), "s200 s100 s0".into()]);
            }
        }
    }

    /// Numbers 1, 2, 3 and 17, and which of two comes first.
    fn numbers(&mut self, run: &mut Run) {
        let track = self.lay(WHOLE).expect("it is read");
        let reach = &Reach::new(&track);
        let (long, bad) = (vec![b'a'; BYTES + 1], b"a \xFF".to_vec());
        let both = [&long[..], b"\xFF"].concat();
        let texts: [(&[u8], u32); 5] = [(b"a", 0), (b"r", 0), (&long, 2), (&bad, 3), (&both, 2)];
        let questions = texts.iter().flat_map(|&(text, number)| {
            [(Question::Value(text), number), (Question::Region(text), number)]
        });
        let questions: Vec<_> = questions.chain([(Question::Cue(0), 0), (Question::Cue(9), 0)]).collect();
        let mut ask = |run: &mut Run, tables: &Tables, lending, what: &str, number: &dyn Fn(u32) -> u32| {
            for (question, own) in &questions {
                let must = match number(*own) {
                    0 => rust(&track, reach, question),
                    number => Outcome::Number(number),
                };
                for lent in [0, 3, 64] {
                    // 18 is last.
                    let short = matches!(&must, Outcome::Found { ids, .. } if 4 * ids.len() > lent);
                    let must = if short { Outcome::Number(18) } else { must.clone() };
                    let port = self.asker.ask(tables, lending, question, lent);
                    run.same(name(question), format_args!("{what}, {:?}", Input(WHOLE, question, lent)), Ok(must), port);
                }
            }
        };
        let whole = self.tables.clone();
        ask(run, &whole, Lending::Fixed, "all well", &|own| own);
        ask(run, &whole, Lending::Longer, "longer tables", &|own| own);
        for table in 0..11 {
            ask(run, &whole, Lending::Short(table), &format!("table {table} short"), &|_| 1);
        }
        for (what, break_it) in BREAKS {
            let mut tables = whole.clone();
            break_it(&mut tables);
            ask(run, &tables, Lending::Fixed, what, &|own| if own > 0 { own } else { 17 });
            ask(run, &tables, Lending::Short(10), what, &|_| 1);
        }
    }
}

fn name(question: &Question) -> &'static str {
    match question {
        Question::Value(_) => "resolve_referenced_style",
        Question::Region(_) => "region_style",
        Question::Cue(_) => "effective_style_for_cue_index",
    }
}

/// The Rust has a list of its own for each value: those of the second that are new are added to the first.
fn visited(track: &SubtitleTrack, reach: &Reach, question: &Question) -> Vec<String> {
    let mut seen = HashSet::new();
    let ids = reach.values(question).into_iter().flat_map(|value| ttml::access::visited(track, &value));
    ids.filter(|id| seen.insert(id.clone())).collect()
}

/// What the Rust answers, with the ids and the number that it does not tell. It stops on a colour, before any size.
fn rust(track: &SubtitleTrack, reach: &Reach, question: &Question) -> Outcome {
    if let Question::Value(text) | Question::Region(text) = question
        && text.len() > BYTES
    {
        return Outcome::Number(2);
    }
    let style = || match question {
        Question::Value(value) => ttml::resolve_referenced_style(track, text(value)),
        Question::Region(id) => ttml::region_style(track, text(id)),
        Question::Cue(index) => ttml::effective_style_for_cue_index(track, *index),
    };
    match Answer::ask(|| Some(style()), |_| 15) {
        Answer::Is(_) if reach.beyond(question) => Outcome::Number(14),
        Answer::Is(style) => Outcome::Found { style: style.map(Style::of), ids: visited(track, reach, question) },
        Answer::Number(number) => Outcome::Number(number),
        Answer::Nothing => unreachable!(),
    }
}

/// A track that has something in each table.
pub const WHOLE: &str = "<tt xml:lang='de' ttp:frameRate='25' ittp:aspectRatio='4 3'><head><styling>\
    <style id='a' style='b  c' tts:color='red' tts:fontSize='1.5px' tts:origin='é' tts:opacity='1'/>\
    <style id='b' tts:fontFamily='Arial' tts:textAlign='end'/></styling>\
    <layout><region id='r' style='a' tts:color='#aé' tts:fontSize='1e9px' tts:zIndex='1'/><region id='q'/></layout></head>\
    <body><p begin='1s' style='a' region='q' tts:opacity='2' xml:space='preserve'>x<br/>\
    <span tts:color='blue' tts:fontSize='-3px'>y</span></p><p>z</p></body></tt>";

pub type Break = (&'static str, fn(&mut Tables));

/// What makes these tables no track.
pub const BREAKS: &[Break] = &[
    ("65 parameters", |t| t.head[0] = 65),
    ("257 styles", |t| t.head[1] = 257),
    ("257 regions", |t| t.head[2] = 257),
    ("2,049 cues", |t| t.head[3] = 2_049),
    ("16,385 segments", |t| t.head[4] = 16_385),
    ("a segment of no cue", |t| t.head[4] += 1),
    ("xml:lang past the strings", |t| t.head[7] = 60_000),
    ("a flag 2", |t| t.head[5] = 2),
    ("65,537 bytes of strings", |t| t.head[8] = 65_537),
    ("65,537 bytes of texts", |t| t.head[9] = 65_537),
    ("strings that end inside a character", |t| t.strings[t.head[8] as usize - 1] = 0xC3),
    ("texts that are not UTF-8", |t| t.texts[0] = 0xFF),
    ("a parameter's name with a blank", |t| t.strings[t.params[0] as usize] = b' '),
    ("a parameter's name with =", |t| t.strings[t.params[0] as usize] = b'='),
    ("a style's name past the strings", |t| t.styles[0] = 60_000),
    ("a chain past the strings", |t| t.styles[3] = 60_000),
    ("a colour of 256", |t| t.styles[5] = 256),
    ("a size of another f32", |t| t.sizes[0] = 1.25),
    ("a size with a zero at its end", |t| (t.styles[18], t.styles[19]) = (150, 2)),
    ("an alignment 5", |t| t.styles[24] = 5),
    ("extras past their table", |t| t.styles[26] = 8_193),
    ("extras twice", |t| t.extras[3] = t.extras[0]),
    ("extras not in order", |t| t.extras[0] = 45),
    ("a region's id past the strings", |t| t.regions[1] = 60_000),
    ("a region's extra without a name", |t| t.extras[3 * t.regions[2] as usize] = 53),
    ("a cue's style past the strings", |t| t.cues[2] = 60_000),
    ("a cue's segments not after those before", |t| t.cues[11 + 7] += 1),
    ("a segment of kind 10", |t| t.segments[0] = 10),
    ("a text with a child", |t| t.segments[1] = 2),
    ("a text past the texts", |t| t.segments[3] = 60_000),
    ("a font's size of sign 3", |t| font(t)[4..].copy_from_slice(&[marks(0, [3, 3, 0]), 3_f32.to_bits()])),
    ("a font's size of another f32", |t| font(t)[5] ^= 1),
    ("a font's size without its minus", |t| font(t)[5] ^= 1 << 31),
    ("a font's size with a zero at its end", |t| font(t)[4] = marks(0, [2, 30, 1])),
    ("a font's size of scale 11", |t| font(t)[4..].copy_from_slice(&[marks(0, [1, 3, 11]), 3e-11_f32.to_bits()])),
    ("a font's size of 7 digits", |t| font(t)[4..].copy_from_slice(&[marks(0, [1, 1_000_000, 0]), 1e6_f32.to_bits()])),
    ("a font's family past the strings", |t| font(t)[3..5].copy_from_slice(&[60_000, 1])),
];

/// The row of the first font.
fn font(t: &mut Tables) -> &mut [u32] {
    t.segments.chunks_mut(6).find(|row| row[0] == 9).expect("there is a font")
}

/// Small documents at the corners of the rules.
fn corners() -> Vec<String> {
    let styling = |styles: &str, rest: &str| {
        format!("<tt><head><styling>{styles}</styling><layout>{rest}</layout></head><body><p style='a' region='r'/><p region='r'/><p style='a'/><p/></body></tt>")
    };
    let chains = [
        "", "a", "b", "a a", "b a", "b b", "c b", " b", "b ", "\u{85}b\u{2003}c", "nobody", "nobody b", "b\u{200B}c", "&#13;b&#10;",
    ];
    let mut documents = vec![String::from("<tt/>"), WHOLE.replace("#aé", "red"), WHOLE.to_string()];
    for own in ["", " tts:color='red'", " tts:fontWeight='bold' tts:fontSize='8px'"] {
        for chain in chains {
            let region = format!("<region id='r' style='{chain}'{own}/>");
            documents.push(styling(&format!("<style id='a' style='{chain}'{own}/><style id='b' style='a' tts:fontStyle='italic' tts:color='lime'/>"), &region));
            // The first of equal names, and the first chain that is not empty.
            documents.push(styling(&format!("<style id='a'{own}/><style id='b' tts:color='#1234'/><style id='a' style='{chain}' tts:color='navy'/><style id='a' style='c'/>"), &region));
            documents.push(styling(&format!("<style id=''{own}/><style id='a b'{own}/><style id='c' style='a'/>"), &region));
        }
    }
    let values = [
        "tts:color='#aé'", "tts:color='#gé'", "tts:backgroundColor='#aé'", "tts:fontSize='1234567px'", "tts:fontSize='123456px'",
        "tts:fontSize='0.00000000001px'", "tts:fontSize='1e9px'", "tts:fontSize='-5px'", "tts:fontSize='.px'", "tts:fontSize='1..2'",
        "tts:fontSize='0000001.50'", "tts:fontSize='1.000000'", "tts:color='#aé' tts:fontSize='1234567'", "tts:textAlign='start'", "tts:textDecoration='underline'",
        "tts:fontFamily=''", "tts:fontSize='px'", "tts:color='zz'", "tts:origin='x'", "TTS:COLOR='red' tts:color='blue'",
    ];
    for own in values {
        for chain in ["", " style=''", " style='a'", " style='c'"] {
            documents.push(styling("<style id='a' tts:color='teal' tts:fontSize='7px'/>", &format!("<region id='r'{chain} {own}/><region id='r' tts:color='red'/>")));
        }
    }
    documents
}

/// The lines of a recording: short documents, their tables, and questions of them.
fn lines(rng: &mut Rng, lines: &mut Lines) {
    let mut tables = Tables::new();
    let mut left = lines.count;
    let mut listed = corners().into_iter().step_by(11);
    while left > 0 {
        let sheet = match listed.next() {
            Some(text) => Sheet { text, ids: vec!["a".into(), "r".into(), "b".into()], cues: 2 },
            None => any_sheet(rng),
        };
        if sheet.text.len() > 900 {
            continue;
        }
        let mut track = ttml::parse(sheet.text.as_bytes()).unwrap();
        // No query looks at segments.
        track.cues.iter_mut().for_each(|cue| cue.segments.clear());
        tables.lay(&track).unwrap();
        tables.lines(|line| lines.line(line));
        let reach = Reach::new(&track);
        for turn in 0..9.min(left) {
            let value = any_value(rng, &sheet.ids, 6);
            let id = sheet.ids[rng.below(sheet.ids.len())].clone();
            let index = rng.below(sheet.cues + 2);
            let (kind, text, question) = match turn % 3 {
                0 => ('V', value.as_bytes().to_vec(), Question::Value(value.as_bytes())),
                1 => ('R', id.as_bytes().to_vec(), Question::Region(id.as_bytes())),
                _ => ('C', (index as u16).to_be_bytes().to_vec(), Question::Cue(index)),
            };
            let (lent, cells) = rng.pick(&[(0, 8), (1, 128), (1, 128)]);
            let answer = match rust(&track, &reach, &question) {
                Outcome::Found { ids, .. } if 4 * ids.len() > cells => Outcome::Number(18),
                answer => answer,
            };
            lines.question(kind, &[&[lent], &text[..]].concat(), &answer.bytes());
        }
        left -= 9.min(left);
    }
}

/// A document of so many styles, each of which refers to the next.
fn line(styles: usize) -> String {
    let mut document = String::from("<tt><head><styling>");
    for at in 0..styles {
        document += &format!("<style xml:id='speaker{at}' style='speaker{}' tts:color='#{at:06x}' tts:fontSize='{at}px'/>", at + 1);
    }
    document + "</styling></head></tt>"
}

/// As many ids of four bytes as a text has room for: none alike, and, if so asked, all of one hash of the port.
fn ids(bytes: usize, one_hash: bool) -> String {
    let hash = |id: &[u8]| id.iter().fold(0, |hash, &byte| (hash * 31 + byte as u32) % 4_096);
    let bytes_of = |at: usize| [at / 8_649, at / 93, at].map(|n| b'!' + (n % 93) as u8);
    let id = |at: usize| {
        let [a, b, c] = bytes_of(at);
        let last = if one_hash { (4_096 - hash(&[a, b, c]) * 31 % 4_096) % 4_096 } else { b'x' as u32 };
        (33..127).contains(&last).then(|| String::from_utf8(vec![a, b, c, last as u8]).unwrap())
    };
    let mut value = (0..93 * 93 * 93).filter_map(id).take(bytes / 5).collect::<Vec<_>>().join(" ");
    value.extend(std::iter::repeat_n(' ', bytes - value.len()));
    value
}

/// A track of 256 styles, named by the first ids of a value, of which each has the whole value as its chain.
fn worst(value: &str) -> Tables {
    let mut tables = Tables::new();
    tables.head[1] = 256;
    tables.head[8] = value.len() as u32;
    tables.strings[..value.len()].copy_from_slice(value.as_bytes());
    for row in 0..256 {
        tables.styles[27 * row..27 * row + 4].copy_from_slice(&[5 * row as u32, 4, 0, value.len() as u32]);
    }
    tables
}

fn bench(bench: &mut Bench) {
    let side = &mut Side { tables: Tables::new(), asker: Asker::default() };
    for styles in [16, 256] {
        let track = side.lay(&line(styles)).unwrap();
        let (question, lent) = (Question::Value(b"speaker0"), 4 * (styles + 1));
        let must = rust(&track, &Reach::new(&track), &question);
        assert_eq!(Ok(must), side.asker.ask(&side.tables, Lending::Fixed, &question, lent));
        bench.row(
            &format!("chain of {styles} styles"),
            line(styles).len(),
            || ttml::resolve_referenced_style(&track, "speaker0"),
            || side.asker.time(&side.tables, &question, lent),
        );
    }
    let (mut first, mut second) = (Asker::default(), Asker::default());
    let lent = 4 * BYTES;
    for (what, one_hash) in [("ids", false), ("ids of one hash", true)] {
        let (half, whole) = (ids(BYTES / 2, one_hash), ids(BYTES, one_hash));
        let (short, long) = (Question::Value(half.as_bytes()), Question::Value(whole.as_bytes()));
        let (tables, track) = (Tables::new(), SubtitleTrack::default());
        let rust = || ttml::resolve_referenced_style(&track, &whole);
        bench.once(&format!("value of {what}"), whole.len(), rust, || second.time(&tables, &long, lent));
        bench.growth(|| first.time(&tables, &short, lent), || second.time(&tables, &long, lent));

        let (small, large) = (worst(&half), worst(&whole));
        let track = large.track().unwrap();
        let question = Question::Value(&whole.as_bytes()[..4]);
        let rust = || ttml::resolve_referenced_style(&track, &whole[..4]);
        bench.once(&format!("256 chains of the same {what}"), whole.len(), rust, || second.time(&large, &question, lent));
        bench.growth_once(|| first.time(&small, &question, lent), || second.time(&large, &question, lent));
    }
}
