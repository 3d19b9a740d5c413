//! Texts in pieces that are repeated, so that a recording holds long ones too: for each number that a text can meet some that meet it, and
//! beside them the last that are taken.

use crate::document::{BYTES, DEPTH, ROWS};
use crate::films::{EVERYTHING, documents};
use crate::judge::{CUES, PARAMS, REGIONS, STYLES};
use reference::ttml;

/// How often a piece stands, and the piece.
pub type Piece = (usize, Vec<u8>);

pub fn text(pieces: &[Piece]) -> Vec<u8> {
    pieces.iter().flat_map(|(count, piece)| piece.repeat(*count)).collect()
}

/// The pieces as lines have them, each as 2 bytes of its count, 1 of its length and itself, in parts of at most so many bytes.
pub fn parts(pieces: &[Piece], most: usize) -> Vec<Vec<u8>> {
    let mut parts = vec![Vec::new()];
    for (count, piece) in pieces {
        let longest = u8::MAX as usize;
        assert!(*count == 1 || piece.len() <= longest, "only a short piece is repeated");
        let count = u16::try_from(*count).expect("a count has 2 bytes").to_be_bytes();
        for piece in piece.chunks(longest) {
            let piece = [&count[..], &[piece.len() as u8], piece].concat();
            match parts.last_mut() {
                Some(last) if last.len() + piece.len() <= most => last.extend(piece),
                _ => parts.push(piece),
            }
        }
    }
    parts
}

fn whole(text: &str) -> Vec<Piece> {
    vec![(1, text.as_bytes().to_vec())]
}

fn many(before: &str, count: usize, piece: &str, after: &str) -> Vec<Piece> {
    [(1, before), (count, piece), (1, after)].map(|(count, piece)| (count, piece.as_bytes().to_vec())).into()
}

/// For `parse`, and for `parse` and then `write`.
pub fn tracks() -> Vec<Vec<Piece>> {
    let mut texts: Vec<Vec<Piece>> = SHORT.iter().map(|text| whole(text)).collect();
    texts.extend(NOT_UTF8.iter().map(|end| vec![(1, b"<tt><body><p>a".to_vec()), (1, end.to_vec())]));
    texts.push(whole(EVERYTHING));
    texts.extend(documents().iter().map(|text| whole(text)));
    texts.push(many(LONG[0], 425, LONG[1], LONG[2]));
    for past in [0, 1] {
        // 2
        texts.push(many("<!--", BYTES - 12 + past, "-", "--><tt/>"));
        texts.push(many("<tt><body><p>a", BYTES - 15 + past, " ", "b"));
        // 4
        texts.push(many("<tt><body>", DEPTH - 3 + past, "<div>", "<p begin='1s' dur='1s'>a"));
        texts.push(many("<tt><body><p begin='1s'>", DEPTH - 4 + past, "<span begin='1s' tts:color='red'>", "a<br/>b"));
        // 5
        texts.push(many("<tt><body><p>", ROWS - 3 + past, "<br/>", "</p>"));
        texts.push(many("<tt><body>", ROWS - 3 + past, "<x/>", "x"));
        // 7
        texts.push(many("<tt", ROWS + past, " a=b", "/>"));
        texts.push(many("<tt><body>", ROWS / 8, "<p a b c d e f g h />", ["", "<p i>"][past]));
        // 13
        texts.push(many("<tt", PARAMS + past, " ttp:a='b'", "><body><p>a"));
        texts.push(many("<tt><head><styling>", STYLES + past, "<style id='a' style='b' tts:color='red'/>", ""));
        texts.push(many("<tt><head><layout>", REGIONS + past, "<region id='a' tts:origin='b'/>", ""));
        texts.push(many("<tt><body>", CUES + past, "<p/>", ""));
    }
    texts.extend(long_written());
    texts
}

/// For `bytes_to_cue`.
pub fn cues() -> Vec<Vec<Piece>> {
    let mut texts: Vec<Vec<Piece>> = SHORT_CUES.iter().map(|text| whole(text)).collect();
    texts.extend(NOT_UTF8.iter().map(|end| vec![(1, b"<p>a".to_vec()), (1, end.to_vec())]));
    texts.push(many("<x/><p>", 4_000, "<span>a</span>", ""));
    for past in [0, 1] {
        texts.push(many("<p>", BYTES - 3 + past, " ", ""));
        texts.push(many("<p begin='1s'>", DEPTH - 2 + past, "<span begin='1s' tts:fontSize='1px'>", "a<br/>b"));
        texts.push(many("<p>", ROWS - 1 + past, "<br/>", "</p>"));
        texts.push(many("<p", ROWS + past, " a=b", "/>"));
    }
    texts
}

/// Tracks whose text has as many bytes as are taken, and one more: 18.
fn long_written() -> Vec<Vec<Piece>> {
    let cue = |count: usize, piece: &str, more: usize| {
        let mut text = many("<tt><body><p xml:space='preserve'>", count, piece, "");
        text.push((more, b"a".to_vec()));
        text
    };
    let bytes = |text: &[Piece]| ttml::write(&ttml::parse(&self::text(text)).expect("it is read")).len();
    let mut texts = Vec::new();
    for (piece, written) in [("a", 1), ("&lt;", 4), ("<![CDATA[&&&&&&]]>", 30), ("<br/>éééé'é", 16)] {
        let room = BYTES - bytes(&cue(0, piece, 0));
        let count = room / written - 1;
        texts.extend([0, 1].map(|past| cue(count, piece, room - count * written + past)));
    }
    texts
}

/// Document 01's example; numbers that need no length.
const SHORT: &[&str] = &[
    "<tt><body><p begin=\"1s\" dur=\"500ms\">A<br/>B</p></body></tt>",
    // 6
    "<tt><body><>",
    "<tt>< p>",
    "<tt><=>",
    // 8
    "<tt><body><p/x>",
    "<tt a='/'/ b>",
    "<tt><body><p / \n>a",
    "<tt a='/' b/ ><body/>",
    // 9
    "<tt a=",
    "<tt a= \t\r\n",
    "<tt a= ><body><p>a",
    // 10
    "<tt",
    "<tt><body><p a",
    "<tt><body><p a='b",
    // 11
    "<tt></",
    "<tt><body></body",
    "<tt><body></body>",
    "<tt/></",
    // 12
    "",
    "<p>a</p>",
    "<a><tt/></a>",
    "<a/><tt/>",
    // 14
    "<tt><body><p begin='1000000000000000ms'>",
    "<tt><body><p begin='999999999999999ms'>",
    "<tt><body><p end='0.00000000000000000000001s'>",
    "<tt><body><p end='0.0000000000000000000001s'>",
    "<tt><body><p><span tts:fontSize='1234567px'>a",
    "<tt><body><p><span tts:fontSize='123456px'>a",
    "<tt><head><styling><style id='a' tts:fontSize='1.00000000001'/>",
    "<tt><head><styling><style id='a' tts:fontSize='1.0000000000'/>",
    "<tt ttp:frameRate='nan'><body><p begin='1e3s'>",
    "<tt><body><p dur='1e3s'>",
    // 15
    "<tt><body><p begin='0:0:0.éééé'>",
    "<tt><body><p begin='0:0:0.ééé'>",
    "<tt><body><p tts:color='#aé'>a",
    "<tt><body><p tts:color='#gé'>a",
    // 16
    "<tt><body begin='2562047788:0'><p begin='55s'>",
    "<tt><body begin='2562047788:0'><p begin='54s'>",
    "<tt><body begin='-2562047788:0'><p begin='-55s'>",
];

const SHORT_CUES: &[&str] = &[
    "<p begin=\"1s\" dur=\"500ms\">A<br/>B</p>",
    "<tt><body><p>a</p></body></tt>",
    "<p><>",
    "<p/",
    "<p a=",
    "<p a",
    "<p></p",
    "<p begin='1000000000000000ms'>",
    "<p begin='999999999999999ms'>",
    "<p><span tts:fontSize='1e5'>a",
    "<p end='0:0:0.éééé'>",
    "<p tts:color='#aé'>a",
    "<p begin='999999999999999h' dur='1us'/>",
    "<p begin='999999999999999h' dur='1ms'/>",
    "<p><span begin='999999999999999h'><span begin='1ms'/></span></p>",
];

/// Ends that are not UTF-8 (3), each beside the nearest that is.
const NOT_UTF8: &[&[u8]] = &[
    b"\xC3", b"<>\xFF", b"\x80", b"\xC1\xBF", b"\xC2\x80", b"\xE2\x82", b"\xE2\x82\xAC", b"\xED\xA0\x80",
    b"\xED\x9F\xBF", b"\xF4\x90\x80\x80", b"\xF4\x8F\xBF\xBF",
];

/// A film of as many cues as its written text has room for.
const LONG: [&str; 3] = [
    "<tt xml:lang='en' ttp:frameRate='25'><head><styling><style xml:id='s' tts:color='yellow'/></styling>\
     <layout><region xml:id='r' tts:origin='10% 80%'/></layout></head><body region='r'><div timeContainer='seq'>\n",
    "<p style='s' begin='5f' dur='1.96s'>Wait by the <span tts:fontStyle='italic'>old</span> pier;<br/>I bring bread &amp; a lamp.</p>\n",
    "</div></body></tt>",
];
