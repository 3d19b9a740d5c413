//! A text as a tree in lent tables, every cell, against the Rust's tree. The Rust's tree and its errors have no
//! places: `document.rs` says them, and is itself held to the Rust on each text.

use super::{Layer, utf8};
use crate::bench::Bench;
use crate::cases::{Rng, any_char, every_word};
use crate::compare::{Run, deep};
use crate::document::{self, BYTES, DEPTH, ROWS};
use crate::expat;
use crate::films::{PUBLISHED, documents, film, short_film};
use crate::lend::{Fault, cells};
use crate::rows::{self, Input, Rows};
use reference::ttml::access;
use std::fmt::{self, Debug, Formatter};
use std::ops::Range;

pub const LAYER: Layer = Layer { name: "tree", compare, record: None, bench: Some(bench) };

/// The fixed lengths of the tables.
pub const NODES: usize = 6 * ROWS;
pub const ATTRS: usize = 4 * ROWS;
const STRINGS: usize = BYTES;

/// The marks that end or begin something: every text of up to 6 of these is asked, 5,229,043 in all.
const MARKS: &[&str] = &["<a", "<", ">", "/", "</", "=", "\"", " ", "x", "<!--", "-->", "<![CDATA[", "]]>"];

/// All marks, parts of them, and what stands between them: every text of up to 4 of these is asked.
const TOKENS: &[&str] = &[
    "<a", "<", ">", "/", "</", "=", "\"", "'", " ", "\t", "\n", "\r", "x", "é", "<!--", "-->", "-", "<![CDATA[", "]]>",
    "]", "<?", "?>", "<!", "&amp;", "&#65;", "&",
];

/// What is put into a document to damage it.
const FOREIGN: &[&str] = &[
    "<", ">", "/", "</", "=", "\"", "'", " ", "\n", "<!--", "-->", "<![CDATA[", "]]>", "<?", "?>", "<!", "&", ";",
    "&amp;", "&#", "<b>", "</b>", "<b/>", "<>", "</>", "-", "]", "a", "é", "\u{1F680}", "\0",
];

fn compare(run: &mut Run) {
    deep(|| {
        let tables = &mut Tables::new();
        every_word(MARKS, 6, |marks| tables.check(run, marks.concat().as_bytes(), Dirt::Some));
        every_word(TOKENS, 4, |tokens| tables.check(run, tokens.concat().as_bytes(), Dirt::Some));
        for text in corners().iter().chain(&limits()).chain(&documents()) {
            tables.check_lengths(run, text.as_bytes());
        }
        for text in PUBLISHED {
            tables.check_lengths(run, text.as_bytes());
        }
        for corner in utf8::corners() {
            tables.check(run, &[b"<a b='", &corner[..], b"'>"].concat(), Dirt::All);
        }
        tables.no_answer(run);
        let documents = documents();
        for n in 0..run.count / 8 {
            let text = any_tokens(&mut run.rng, 40);
            tables.check(run, text.as_bytes(), Dirt::Some);
            let document = &documents[run.rng.below(documents.len())];
            let text = damaged(&mut run.rng, document);
            tables.check(run, &text, if n % 16 == 0 { Dirt::All } else { Dirt::Some });
        }
        for _ in 0..run.count / 1000 {
            let text = any_long(&mut run.rng);
            tables.check_lengths(run, text.as_bytes());
        }
    });
}

/// What the port did, as far as it is a difference: the answer's number and place, how many nodes and attributes, and the first
/// cell that is not what it must be.
#[derive(Debug, PartialEq)]
struct Done {
    answer: Result<(u64, [u32; 2]), Fault>,
    wrong: Option<Wrong>,
}

#[derive(Debug, PartialEq)]
enum Wrong {
    Node { row: usize, cell: usize, is: u32, must: u32 },
    Attr { row: usize, cell: usize, is: u32, must: u32 },
    String { at: usize, is: u8, must: u8 },
    Outside(&'static str),
}

/// A question in a report.
struct Lent<'a>(&'a [u8], [usize; 3]);

impl Debug for Lent<'_> {
    fn fmt(&self, f: &mut Formatter) -> fmt::Result {
        let Lent(text, lengths) = self;
        write!(f, "{:?}", Input(text))?;
        if *lengths != FIXED { write!(f, " into tables of {lengths:?}") } else { Ok(()) }
    }
}

/// How much of the tables is filled before they are lent: all, or where a short text's rows and strings stand, the
/// ends, and some cells in a place that moves. What is not filled then is zero, as the call before left it.
#[derive(Clone, Copy, PartialEq)]
enum Dirt {
    All,
    Some,
}

const FIXED: [usize; 3] = [NODES, ATTRS, STRINGS];
/// The longest tables that are lent.
const MORE: usize = 1_000;
const GUARD: usize = 64;
const CELL: u32 = 0xA5A5_5A5A;
const BYTE: u8 = 0xA5;

/// The lent tables, each within a guarded area, and what they must hold.
struct Tables {
    nodes: Vec<u32>,
    attrs: Vec<u32>,
    strings: Vec<u8>,
    calls: usize,
    must: Rows,
}

impl Tables {
    fn new() -> Tables {
        let whole = |fixed| fixed + MORE + 2 * GUARD;
        Tables {
            nodes: vec![CELL; whole(NODES)],
            attrs: vec![CELL; whole(ATTRS)],
            strings: vec![BYTE; whole(STRINGS)],
            calls: 0,
            must: Rows::default(),
        }
    }

    /// One question with tables of the fixed lengths.
    fn check(&mut self, run: &mut Run, text: &[u8], dirt: Dirt) {
        self.check_with(run, text, FIXED, dirt);
    }

    /// The same with longer tables too, and with one of them short.
    fn check_lengths(&mut self, run: &mut Run, text: &[u8]) {
        self.check(run, text, Dirt::All);
        self.check_with(run, text, [NODES + 1, ATTRS + 5, STRINGS + MORE], Dirt::All);
        self.check_with(run, text, [NODES + MORE, ATTRS + 1, STRINGS + 1], Dirt::All);
        let short = self.calls / 3 % 3;
        let mut lengths = [NODES + 2, ATTRS, STRINGS + 3];
        lengths[short] = [FIXED[short] - 1, 0, 7][self.calls / 9 % 3];
        self.check_with(run, text, lengths, Dirt::All);
    }

    fn check_with(&mut self, run: &mut Run, text: &[u8], lengths: [usize; 3], dirt: Dirt) {
        let Some(answer) = self.must(run, text, lengths) else {
            return;
        };
        let port = self.ask(text, lengths, dirt);
        let input = Lent(text, lengths);
        run.same("parse_xml", format_args!("{input:?}"), Done { answer: Ok(answer), wrong: None }, port);
    }

    /// What the answer must be, by the Rust and document 01, and in `must` the cells. `None` if these two differ,
    /// which counts as a difference.
    fn must(&mut self, run: &mut Run, text: &[u8], lengths: [usize; 3]) -> Option<(u64, [u32; 2])> {
        self.must.clear();
        if lengths.iter().zip(FIXED).any(|(&length, fixed)| length < fixed) {
            return Some((1, [0; 2]));
        }
        match rows::read_in(run, text)? {
            Err(refusal) => Some((refusal.number as u64 | (refusal.place as u64) << 32, [0; 2])),
            Ok(read) => {
                self.must.fill(&read);
                Some((0, [read.document.nodes.len() as u32, read.document.attrs.len() as u32]))
            }
        }
    }

    fn ask(&mut self, text: &[u8], lengths: [usize; 3], dirt: Dirt) -> Done {
        self.calls += 1;
        let nodes = lend(&mut self.nodes, lengths[0], CELL, dirt, self.calls);
        let attrs = lend(&mut self.attrs, lengths[1], CELL, dirt, self.calls);
        let strings = lend(&mut self.strings, lengths[2], BYTE, dirt, self.calls);
        let answer = cells(2, |counts| port::pg_parse_xml(text, nodes, attrs, strings, counts));
        Done { answer, wrong: self.wrong(lengths) }
    }

    /// The first cell that is not what it must be.
    fn wrong(&self, lengths: [usize; 3]) -> Option<Wrong> {
        let nodes = GUARD..GUARD + lengths[0];
        if let Some((at, is, must)) = other(&self.nodes[nodes.clone()], &self.must.nodes) {
            return Some(Wrong::Node { row: at / 6, cell: at % 6, is, must });
        }
        let attrs = GUARD..GUARD + lengths[1];
        if let Some((at, is, must)) = other(&self.attrs[attrs.clone()], &self.must.attrs) {
            return Some(Wrong::Attr { row: at / 4, cell: at % 4, is, must });
        }
        let strings = GUARD..GUARD + lengths[2];
        if let Some((at, is, must)) = other(&self.strings[strings.clone()], &self.must.strings) {
            return Some(Wrong::String { at, is, must });
        }
        if touched(&self.nodes, nodes, CELL) {
            return Some(Wrong::Outside("nodes"));
        }
        if touched(&self.attrs, attrs, CELL) {
            return Some(Wrong::Outside("attrs"));
        }
        touched(&self.strings, strings, BYTE).then_some(Wrong::Outside("strings"))
    }

    /// The port's number alone, for its time.
    fn read(&mut self, text: &str) -> u32 {
        let Tables { nodes, attrs, strings, .. } = self;
        let (nodes, attrs, strings) = (&mut nodes[..NODES], &mut attrs[..ATTRS], &mut strings[..STRINGS]);
        port::pg_parse_xml(text.as_bytes(), nodes, attrs, strings, &mut [0; 2]) as u32
    }

    /// With fewer than 2 cells for the counts, or more.
    fn no_answer(&mut self, run: &mut Run) {
        for length in 0..4 {
            let nodes = lend(&mut self.nodes, NODES, CELL, Dirt::All, 0);
            let attrs = lend(&mut self.attrs, ATTRS, CELL, Dirt::All, 0);
            let strings = lend(&mut self.strings, STRINGS, BYTE, Dirt::All, 0);
            let answer = cells(length, |counts| port::pg_parse_xml(b"<a b='c'>d", nodes, attrs, strings, counts));
            let answer = answer.map(|(told, counts): (_, [u32; 4])| (told, counts[..length].to_vec()));
            let clear = [all(nodes, 0), all(attrs, 0), all(strings, 0)];
            let (number, counts) = if length < 2 { (1, vec![0; length]) } else { (0, [2, 1, 0, 0][..length].to_vec()) };
            let must = (Ok((number, counts)), [length < 2; 3]);
            run.same("parse_xml", format_args!("{length} cells"), must, (answer, clear));
        }
    }
}

/// A table of this length within its guarded area, with other bits in it than zero.
fn lend<C: Copy>(table: &mut [C], length: usize, fill: C, dirt: Dirt, calls: usize) -> &mut [C] {
    match dirt {
        Dirt::All => table.fill(fill),
        Dirt::Some => {
            table[..GUARD + 200].fill(fill);
            let place = GUARD + calls * 997 % (length - 48);
            table[place..place + 48].fill(fill);
            table[GUARD + length - 48..GUARD + length + GUARD].fill(fill);
        }
    }
    &mut table[GUARD..GUARD + length]
}

fn all<C: Copy + PartialEq>(cells: &[C], value: C) -> bool {
    // In runs, so that it compares many cells at once.
    cells.chunks(512).all(|run| run.iter().fold(true, |same, &cell| same & (cell == value)))
}

fn touched<C: Copy + PartialEq>(table: &[C], lent: Range<usize>, fill: C) -> bool {
    !all(&table[..GUARD], fill) || !all(&table[lent.end..lent.end + GUARD], fill)
}

/// The first cell that differs from what it must be, which is zero after the last that is named.
fn other<C: Copy + PartialEq + Default>(table: &[C], must: &[C]) -> Option<(usize, C, C)> {
    let zero = C::default();
    let (used, rest) = table.split_at(must.len());
    if used == must && all(rest, zero) {
        return None;
    }
    let at = (0..table.len()).find(|&at| table[at] != *must.get(at).unwrap_or(&zero))?;
    Some((at, table[at], *must.get(at).unwrap_or(&zero)))
}

/// The corners of document 01 and of the readings of it.
pub fn corners() -> Vec<String> {
    let mut corners: Vec<String> = [
        "", " ", "a", " a", "\u{FEFF}<?xml?><a/>", "\u{FEFF}", "<", ">", "<>", "< a>", "</", "</a", "</a>", "a</a>b",
        "<a><!----></", "<a><b><!----></", "<a></", "<a><b></", "<a></b", "<a></b>c", "<a><!--", "<a><!-->",
        "<a><!--->", "<a><!---->", "<!-->a", "<!--->a", "<?>a", "<??>a", "<!>a", "<!<a>b", "<![CDATA[a]]>b",
        " <![CDATA[a>b]]>c", "<a><![CDATA[b", "<a><![CDATA[b]]", "<a><![CDATA[]]]>", "x<![CDATA[]]>",
        "<a><![CDATA[]]></a>", "<a><![cdata[b]]></a>", "x<![CDATA[]>]]>", "x<?a?>b", "x<!a>b", "x<!DOCTYPE a>b",
        "x<!-a>", "x<![CDATA>", "<a><?b?></a>", "<a><!b></a>", "<a =", "<a = ", "<a b=", "<a b= \n", "<a b==", "<a ==",
        "<a b='/", "<a b=\"/", "<a b='", "<a b='c", "<a b='c'", "<a b='c'/", "<a b='c'/ ", "<a b='c'/x>", "<a/",
        "<a/ \t\r\n>", "<a/b>", "<a b/c>", "<a b=/>", "<a b=>", "<a b= />", "<a b=c/>", "<a b=c/d>", "<a b=c=d>",
        "<a =b>", "<a =>", "<a = >", "<a b>", "<a b c>", "<a b\n=\tc>", "<a b='c'd='e'>", "<a b='c'd>", "<a b'c'>",
        "<a 'b'=c>", "<a b=c'd'>", "<a b=\"'\" c='\"'>", "<a b=a b=b B=c>", "<a b='<>'>", "<a b=<c>", "<a<b>",
        "<a&amp;b>", "<a &amp;='&amp;'>", "<a b=&lt;c>", "<a b='&'>", "<a>&lt;b&gt;</a>", "<a>&amp;lt;</a>", "&nbsp;",
        "<é é=é>é</é>", "<a\u{A0}b>", "<a\u{B}b\u{C}=c>", "<a\0>", "<a>\0</a>", "<a></a\n>", "<a></ a>", "<a></>",
        "<a><b></a></b>", "<A></a>", "<a:b:c/>", "<:/>", "<a><b/><c/></a><d/>", "a<b/>c<d/>e", "a<!--b-->c",
        "<a>b<!--c-->d<!--e--></a>f", "<a><b>c</b><!--d--></a></e>", "<a><!--b--><!--c--></a>", "<a><!--b--><c/></a>",
        "<a><!--b-->c</a>", "<a><!--b--> </a>", "<a><b><!--c--></b></a>d", "<p>a<br>b</p><p>c</p>",
        "<a/><!--b--></c>d", "<!--a--><!--b--><c/>", "<!--a--> <?b?>\n<!c><d/>", "<?xml version='1.0'?", "<?a?><?b?>",
        "<!-- a -- b --><c/>",
    ]
    .map(String::from)
    .to_vec();
    corners.extend(
        [
            "<d><p>a<!--c--></p><p>b</p></d>",
            "<a><![CDATA[&amp;]]>&amp;</a>",
            "<!DOCTYPE a [<!ENTITY b 'c'>]><d>&b;</d>",
            "<tt><body><p begin=\"1s\" dur=\"500ms\">A<br/>B</p></body></tt>",
        ]
        .map(String::from),
    );
    // Runs of one mark, and of two in turn.
    for mark in FOREIGN {
        corners.extend([2, 3, 20, 64, 65].map(|n| mark.repeat(n)));
        corners.extend(FOREIGN.iter().map(|other| format!("<a>{}", format!("{mark}{other}").repeat(12))));
        corners.extend(FOREIGN.iter().map(|other| format!("<a {}", format!("{mark}{other}").repeat(12))));
    }
    corners
}

/// What may stand at a limit: nodes, attributes and the Rust's errors.
const LAST: &[&str] = &[
    "", "x", "<b>", "<b/>", "<>", "</", "</>", "</a", "<![CDATA[]]>", "<!--", "<!---->", "<b", "<b/", "<b/x>", "<b =",
    "<b c=", "<b c>", "<b><c>", "x<b/>", "x</", "<!----></", "<b c d",
];

/// Texts at and around each limit.
pub fn limits() -> Vec<String> {
    let mut texts = Vec::new();
    let around = |n: usize| n - 2..=n + 2;
    for depth in around(DEPTH).chain([128, 1_000]) {
        for open in ["<a>", "<a b='c'>", "<!---->x<a>"] {
            texts.extend(LAST.iter().map(|last| format!("{}{last}", open.repeat(depth))));
            texts.extend(LAST.iter().map(|last| format!("{}{last}{}", open.repeat(depth), "</a>".repeat(depth))));
        }
        texts.push(format!("{}{}", "<a>".repeat(depth), "</a><b>".repeat(40)));
        texts.push("<a>".repeat(depth) + &"</a>".repeat(depth) + &"<b>".repeat(depth));
    }
    for nodes in around(ROWS) {
        for node in ["<b/>", "<b></b>", "<!---->x<b/>", "<a>x</a>"] {
            let each = if node.contains('x') { 2 } else { 1 };
            let many = node.repeat(nodes / each);
            texts.extend(LAST.iter().map(|last| format!("{many}{last}")));
            texts.extend(LAST.iter().map(|last| format!("<a>{many}{last}")));
        }
        let sections = "<![CDATA[]]>".repeat(5) + &"<b/>".repeat(nodes - 5);
        texts.extend([format!("<b/>{sections}"), format!("{}<b/>", &sections[12..])]);
        texts.push("<b/>".repeat(nodes - 3) + "<![CDATA[<a>]]>x<![CDATA[");
        // Depth and nodes at once.
        for depth in around(DEPTH) {
            texts.extend(LAST.iter().map(|last| "<b/>".repeat(nodes - depth) + &"<a>".repeat(depth) + last));
        }
    }
    for attrs in around(ROWS) {
        for attr in [" b", " b=c", " =", " b=''", "b=''"] {
            let many = attr.repeat(attrs);
            for end in
                ["", ">", "/>", "/", "/x", " =", " c", " c=", " c= ", "='", "><b c>", "><b/>", "></", "><b", "><>"]
            {
                texts.push(format!("<a {many}{end}"));
            }
        }
        texts.push("<a b>".repeat(40) + "<c" + &" d".repeat(attrs - 40) + ">");
        texts.push("<a b c/>".repeat(attrs / 2) + "<a b/>");
        texts.push("<a b c/>".repeat(attrs / 2) + "<a/><a/>x<b c d>");
    }
    for bytes in [BYTES - 2, BYTES - 1, BYTES, BYTES + 1, BYTES + 2, 2 * BYTES] {
        let openings = [
            "", "<a>", "<a", "<a ", "<a b=", "<a b='", "</", "<a></", "<!--", "<?", "<!", "<a><!--", "<a><![CDATA[",
            "x",
        ];
        for opening in openings {
            for fill in ["a", " ", "-", "]", "&", "é", "日", "\u{1F680}", "<", "&amp;", "<!---->", "<a>", "</a>"] {
                let room = bytes - opening.len();
                let filled = opening.to_string() + &fill.repeat(room / fill.len()) + &"a".repeat(room % fill.len());
                texts.push(filled.clone());
                for end in [">", "'>", "/>", "-->", "]]>", "?>", "&", "&lt;"] {
                    let mut cut = bytes - end.len();
                    while !filled.is_char_boundary(cut) {
                        cut -= 1;
                    }
                    texts.push(format!("{}{end}", &filled[..cut]));
                }
            }
        }
    }
    texts
}

/// At most `most` tokens.
fn any_tokens(rng: &mut Rng, most: usize) -> String {
    let mut text = if rng.below(2) == 0 { "<a>".to_string() } else { String::new() };
    for _ in 0..rng.below(most + 1) {
        match rng.below(20) {
            0 => text.push(any_char(rng)),
            1..5 => text.push_str(rng.pick(FOREIGN)),
            _ => text.push_str(rng.pick(TOKENS)),
        }
    }
    text
}

/// A document with 1 to 5 pieces left out, doubled, swapped or put in, or that is cut; one in 16 is not UTF-8.
pub fn damaged(rng: &mut Rng, document: &str) -> Vec<u8> {
    let mut text = document.as_bytes().to_vec();
    let bytes = rng.below(16) == 0;
    for _ in 0..1 + rng.below(5) {
        let mut place = rng.below(text.len() + 1);
        let most = 2 << rng.below(7);
        let mut end = place + rng.below(most).min(text.len() - place);
        if !bytes {
            // Not inside a character.
            let inside = |at: usize| text.get(at).is_some_and(|b| b & 0xC0 == 0x80);
            while inside(place) {
                place -= 1;
            }
            while inside(end) {
                end += 1;
            }
        }
        match rng.below(9) {
            0 if bytes => text.insert(place, rng.next() as u8),
            0..4 => drop(text.splice(place..place, rng.pick(FOREIGN).bytes())),
            4..6 => drop(text.drain(place..end)),
            6 => {
                let piece = text[place..end].to_vec();
                drop(text.splice(end..end, piece));
            }
            7 => drop(text.splice(place..end, rng.pick(TOKENS).bytes())),
            _ if rng.below(6) == 0 => text.truncate(place),
            _ => {
                let piece: Vec<u8> = text.drain(place..end).collect();
                let mut at = rng.below(text.len() + 1);
                while !bytes && text.get(at).is_some_and(|b| b & 0xC0 == 0x80) {
                    at -= 1;
                }
                drop(text.splice(at..at, piece));
            }
        }
    }
    text
}

/// A long text, of many tokens or of a few pieces many times, often of just as many bytes as are taken.
fn any_long(rng: &mut Rng) -> String {
    let mut text = any_tokens(rng, 10);
    let bytes = match rng.below(4) {
        0 => BYTES - 3 + rng.below(6),
        1 => 40_000 + rng.below(25_000),
        _ => rng.below(BYTES),
    };
    let pieces: Vec<String> = (0..1 + rng.below(4))
        .map(|_| match rng.below(4) {
            0 => any_tokens(rng, 6),
            1 => "<b/>".to_string(),
            2 => rng.pick(LAST).to_string(),
            _ => rng.pick(TOKENS).to_string(),
        })
        .collect();
    while text.len() < bytes {
        let piece = &pieces[rng.below(pieces.len())];
        for _ in 0..1 + rng.below(60) {
            text.push_str(if piece.is_empty() { "x" } else { piece });
        }
    }
    let mut cut = bytes.min(text.len());
    while !text.is_char_boundary(cut) {
        cut -= 1;
    }
    text.truncate(cut);
    text + rng.pick(LAST)
}

/// Texts of about so many bytes that ask much of a reader: each with its name, within the limits of rows and depth.
fn hostile(bytes: usize) -> Vec<(&'static str, String)> {
    let repeated = |head: &str, piece: &str, tail: &str| {
        let many = (bytes - head.len() - tail.len()) / piece.len();
        format!("{head}{}{tail}", piece.repeat(many))
    };
    let nest = "<ab>".repeat(DEPTH) + &"</ab>".repeat(DEPTH);
    vec![
        ("64 deep, again and again", repeated("", &nest, "")),
        ("8-byte elements", repeated("<a>", "<bcdef/>", "")),
        ("8-byte attributes, no values", repeated("<a", " bcdefgh", "/>")),
        ("8-byte attributes with values", repeated("<a", " bc='de'", "/>")),
        ("runs of &", repeated("<a>", "&", "</a>")),
        ("& and 16 letters, in a value", repeated("<a b='", "&abcdefghijklmnop", "'/>")),
        ("one long text", repeated("<a>", "The quay has slept. ", "</a>")),
        ("one long name", repeated("<", "abcdefgh", "/>")),
        ("one long section", repeated("<a><![CDATA[", "The quay has slept. ", "]]></a>")),
        ("]] in a section without end", repeated("<a><![CDATA[", "]]", "")),
        ("comments", repeated("<a>", "<!-- a comment -->", "</a>")),
        ("comments of 7 bytes", repeated("<a>", "<!---->", "</a>")),
        ("-- in a comment without end", repeated("<a><!--", "--", "")),
        ("? in a prolog without end", repeated("<?", "?", "")),
        ("quote mark without end", repeated("<a b=\"", "The quay has slept. ", "")),
        ("blanks in a tag", repeated("<a", " ", ">")),
    ]
}

fn bench(bench: &mut Bench) {
    deep(|| {
        let (tables, others) = (&mut Tables::new(), &mut Tables::new());
        let (long, short) = (film(60_000), short_film());
        row(bench, tables, "film", &long);
        row(bench, tables, "short film", &short);
        for ((name, half), (_, whole)) in hostile(BYTES / 2).iter().zip(&hostile(BYTES)) {
            row(bench, tables, name, half);
            row(bench, tables, name, whole);
            bench.growth(|| others.read(half), || tables.read(whole));
        }
        println!("The same with expat in the place of the Rust: its handlers count tags and bytes of texts.");
        if expat::FOUND {
            bench.row("film, expat", long.len(), || expat::count(&long), || tables.read(&long));
            bench.row("short film, expat", short.len(), || expat::count(&short), || tables.read(&short));
        } else {
            println!("    libexpat was not found when this was built");
        }
    });
}

fn row(bench: &mut Bench, tables: &mut Tables, name: &str, text: &str) {
    let document = document::read(text.as_bytes());
    let number = document.refusal().map_or(0, |refusal| refusal.number);
    assert_eq!(access::reads_xml(text).is_none(), document.error.is_some(), "document 01 differs on {name}");
    assert_eq!(tables.read(text), number, "parse_xml differs on {name}");
    bench.row(&format!("parse_xml, {name}"), text.len(), || access::reads_xml(text), || tables.read(text));
}
