//! Documents of about so many bytes that ask much of `parse` and `write`, within the limits of rows and depth.

use crate::extras::INLINE;

/// As many pieces as there is room for between head and tail.
fn repeated(bytes: usize, head: &str, piece: &str, tail: &str) -> String {
    let many = (bytes - head.len() - tail.len()) / piece.len();
    format!("{head}{}{tail}", piece.repeat(many))
}

/// Each with its name.
pub fn hostile(bytes: usize) -> Vec<(&'static str, String)> {
    let text = |head: &str, piece: &str| repeated(bytes, head, piece, "");
    let inline = "<tt><body><p>";
    let spans = inline.to_string() + &"<span>".repeat(60);
    let dressed = "<span begin=1s tts:fontWeight=bold tts:fontStyle=italic tts:textDecoration=underlinestrike tts:color=red tts:fontSize=1>";
    let all: String = INLINE.iter().map(|name| format!(" {name}='a'")).collect();
    let p = format!("<p begin='1s' end='2s' style='s' region='r' tts:color='red' tts:fontSize='9px'{all}>a</p>");
    vec![
        ("spans 60 deep around breaks", text(&spans, "<br    />")),
        ("dressed spans 60 deep around breaks", text(&(inline.to_string() + &dressed.repeat(60)), "<br    />")),
        ("one-byte texts between spans", text(inline, "<span          />a")),
        ("texts in spans", text(inline, "<span tts:color='red'>a</span>")),
        ("ps with all attributes", text("<tt><body>", &p)),
        ("white space over many nodes", text(inline, "  <span        > </span> \n")),
        ("kept spaces, all trimmed", text(inline, "<span xml:space='preserve'> </span>")),
        (
            "seq containers 60 deep",
            text(
                &("<tt><body>".to_string() + &"<div timeContainer='seq' begin='1s'>".repeat(60)),
                "<p begin='1s' dur='1s'> a b </p>",
            ),
        ),
        ("unknown elements 60 deep", text(&(inline.to_string() + &"<x>".repeat(60)), "a<br             />")),
        ("a p with attributes that none knows", repeated(bytes, "<tt><body><p", " abcdefg", ">a")),
        ("one long text", text(inline, "The quay has slept. ")),
        ("one long text of white space", text(inline, " \n")),
        ("entities", text(inline, "&amp;")),
        ("sections", text(inline, "<![CDATA[ a ]]>")),
    ]
}
