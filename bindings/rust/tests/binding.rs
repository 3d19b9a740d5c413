//! What the documentation's examples leave: each part of a track, tables used again, long answers, short stacks.

use postgarlic::{Align, Color, Segment, Segments, Size, Style, Tables, Track};
use std::thread;

/// Segments in words.
fn words(segments: Segments) -> String {
    let word = |segment| match segment {
        Segment::Text(text) => format!("{text:?}"),
        Segment::Break => "br".to_string(),
        Segment::Timestamp(us) => format!("@{us}"),
        Segment::Bold(children) => format!("b({})", words(children)),
        Segment::Italic(children) => format!("i({})", words(children)),
        Segment::Underline(children) => format!("u({})", words(children)),
        Segment::Strike(children) => format!("s({})", words(children)),
        Segment::Color { rgb, children } => format!("{rgb:?}({})", words(children)),
        Segment::Font { family, size, children } => {
            format!(
                "font {} {}({})",
                family.unwrap_or("-"),
                size.map_or("-".to_string(), |s| s.to_string()),
                words(children)
            )
        }
        other => unreachable!("{other:?}"),
    };
    segments.map(word).collect::<Vec<_>>().join(" ")
}

fn head(style: &str) -> String {
    format!("<tt><head><styling><style id='s' {style}/></styling></head></tt>")
}

#[test]
fn segments_of_each_kind() {
    let mut tables = Tables::new();
    let text = "<tt ttp:frameRate='25'><body><p begin='1s' xml:space='preserve' region='r' style='a b' tts:zIndex='1'>a  b<br/>\
        <span begin='5f' tts:color='#0A0B0C' tts:fontWeight='bold' tts:fontStyle='oblique'\
        tts:textDecoration='underline strike'>c</span><span tts:fontFamily='F' tts:fontSize='-0.5'>d</span><span/></p>\
        <p end='1s'>a  b</p></body></tt>";
    let track = tables.parse(text).unwrap();
    let [first, second] = [0, 1].map(|index| track.cue(index).unwrap());
    assert_eq!(
        words(first.segments()),
        r#""a  b" br @1200000 [10, 11, 12](s(u(i(b("c"))))) font F -0.5("d") font - -()"#
    );
    assert_eq!(first.text().unwrap(), "a  b\ncd");
    assert!(first.preserves_space() && !second.preserves_space());
    assert_eq!((first.style(), first.region(), second.style(), second.region()), (Some("a b"), Some("r"), None, None));
    assert_eq!(first.extras().collect::<Vec<_>>(), [("tts:zIndex", "1")]);
    assert_eq!(words(second.segments()), r#""a b""#);
    assert_eq!((second.begin(), second.end(), second.index()), (0, 1_000_000, 1));
    assert_eq!(track.cues().rev().map(|cue| cue.index()).collect::<Vec<_>>(), [1, 0]);
    assert!(track.cue(2).is_none());
    assert!(track.effective_style_for_cue_index(2).unwrap().style.is_none());
}

#[test]
fn styles_part_by_part() {
    let mut tables = Tables::new();
    let blank = Style {
        name: "s",
        color: None,
        background: None,
        family: None,
        size: None,
        bold: false,
        italic: false,
        underline: false,
        strike: false,
        align: Align::Start,
    };
    let color = Color { red: 1, green: 2, blue: 3, alpha: 4 };
    let size = Size { value: 0.75, negative: false, digits: 75, scale: 2 };
    let parts = [
        ("tts:color='#01020304'", Style { color: Some(color), ..blank }),
        ("tts:backgroundColor='#01020304'", Style { background: Some(color), ..blank }),
        ("tts:fontFamily='F'", Style { family: Some("F"), ..blank }),
        ("tts:fontSize='0.750em'", Style { size: Some(size), ..blank }),
        ("tts:fontWeight='bold'", Style { bold: true, ..blank }),
        ("tts:fontStyle='italic'", Style { italic: true, ..blank }),
        ("tts:textDecoration='underline'", Style { underline: true, ..blank }),
        ("tts:textDecoration='line-through'", Style { strike: true, ..blank }),
        ("tts:textAlign='center'", Style { align: Align::Center, ..blank }),
        ("tts:textAlign='end'", Style { align: Align::End, ..blank }),
        ("tts:textAlign='left'", Style { align: Align::Left, ..blank }),
        ("tts:textAlign='right'", Style { align: Align::Right, ..blank }),
    ];
    for (attribute, style) in parts {
        let track = tables.parse(&head(attribute)).unwrap();
        let row = track.styles().next().unwrap();
        assert_eq!((row.style, row.chain, row.extras().len()), (style, None, 0), "{attribute}");
        let resolved = track.resolve_referenced_style(" s ").unwrap();
        assert_eq!((resolved.style, resolved.ids), (Some(style), vec!["s"]), "{attribute}");
    }
    let track = tables.parse("<tt><head><layout><region id='r' tts:color='#01020304'/></layout></head></tt>").unwrap();
    let resolved = track.region_style("r").unwrap();
    assert_eq!(resolved.style, Some(Style { name: "r", color: Some(color), ..blank }));
    assert!(track.region_style("s").unwrap().style.is_none());
}

#[test]
fn sizes_are_spelled_as_rust_prints_them() {
    let mut tables = Tables::new();
    for size in ["0", "-0", "7", "10", "0.5", "-12.25", "123456", "0.0000000001", "1000.01"] {
        let cue = tables.parse_cue(&format!("<p><span tts:fontSize='{size}'>a</span></p>")).unwrap();
        let Some(Segment::Font { size: Some(read), .. }) = cue.segments().next() else { panic!("{size}") };
        assert_eq!((read.to_string(), read.value), (size.to_string(), size.parse().unwrap()));
        assert_eq!(format!("{}", read.value), size);
    }
}

#[test]
fn a_text_of_more_than_65_536_bytes_is_refused() {
    let mut tables = Tables::new();
    tables.texts.fill(b'a');
    tables.head[3..].copy_from_slice(&[1, 3, 0, 0, 0, 0, 65536]);
    tables.cues[8] = 3;
    tables.segments[..18].copy_from_slice(&[9, 3, 0, 0, 0, 0, 1, 1, 1, 65535, 0, 0, 2, 1, 0, 0, 0, 0]);
    let text = tables.check().unwrap().cue(0).unwrap().text().unwrap();
    assert_eq!((text.len(), text.ends_with("a\n")), (65536, true));
    tables.segments[8..10].copy_from_slice(&[0, 65536]);
    assert_eq!(tables.check().unwrap().cue(0).unwrap().text().unwrap_err().number(), 18);
}

#[test]
fn times_and_sizes_are_those_of_their_cells() {
    let mut tables = Tables::new();
    tables.head[3] = 1;
    tables.head[4] = 1;
    tables.cues[8] = 1;
    for time in [i64::MIN, -1, 0, 1, (1 << 32) - 1, 1 << 32, i64::MAX] {
        tables.segments[..4].copy_from_slice(&[3, 1, time as u32, (time >> 32) as u32]);
        let track = tables.check().unwrap();
        let Some(Segment::Timestamp(read)) = track.cue(0).unwrap().segments().next() else { panic!("{time}") };
        assert_eq!(read, time);
    }
    // no family and no size; an empty family; zero, and minus zero
    for (marks, bits, family, size) in [
        (0, 0, None, None),
        (1, 0, Some(""), None),
        (1 << 1, 0, None, Some("0")),
        (2 << 1, 1 << 31, None, Some("-0")),
        (1 | 2 << 1 | 2 << 3 | 1225 << 7, (-12.25_f32).to_bits(), Some(""), Some("-12.25")),
    ] {
        tables.segments[..6].copy_from_slice(&[9, 1, 0, 0, marks, bits]);
        let track = tables.check().unwrap();
        let Some(Segment::Font { family: read, size: spelled, .. }) = track.cue(0).unwrap().segments().next() else {
            panic!("{marks}")
        };
        assert_eq!((read, spelled.map(|size| size.to_string()).as_deref()), (family, size));
        assert!(spelled.is_none_or(|size| size.value.to_bits() == bits));
    }
    for (marks, bits) in [(3 << 1, 0), (2 << 1, 0), (1 << 1 | 1 << 3 | 50 << 7, 5_f32.to_bits())] {
        tables.segments[..6].copy_from_slice(&[9, 1, 0, 0, marks, bits]);
        assert_eq!(tables.check().unwrap_err().number(), 17);
    }
}

/// A track in words, to compare two.
fn all(track: Track) -> String {
    format!("{track:?}")
}

#[test]
fn tables_are_used_again() {
    let mut tables = Tables::new();
    let mut fresh = Vec::new();
    let texts = ["<tt><body><p>long text here</p><p/></body></tt>", "<tt", "<tt><body><p>x</p></body></tt>", "<tt/>"];
    for text in texts {
        fresh.push(Tables::new().parse(text).map(all));
    }
    for _ in 0..2 {
        for (text, fresh) in texts.iter().zip(&fresh) {
            assert_eq!(&tables.parse(text).map(all), fresh);
        }
    }
    assert!(tables.parse("<tt").is_err());
    assert!(tables.strings.iter().all(|&b| b == 0) && tables.nodes.iter().all(|&cell| cell == 0));
}

#[test]
fn films_are_written_and_read_back() {
    let mut tables = Tables::new();
    let mut again = Tables::new();
    for film in ["minutes", "opening", "spoken"] {
        let text = std::fs::read_to_string(format!("{}/../../examples/films/{film}.ttml", env!("CARGO_MANIFEST_DIR")))
            .unwrap();
        let track = tables.parse(&text).unwrap();
        let written = track.write().unwrap();
        // timestamps are written as absolute times, and read as counted from the cue's begin: the Rust does the same
        if film != "spoken" {
            assert_eq!(again.parse(&written).unwrap().write().unwrap(), written, "{film}");
        }
        let mut out = vec![7; written.len() + 3];
        assert_eq!(track.write_into(&mut out).unwrap(), written.len());
        assert_eq!(out, [written.as_bytes(), &[0; 3]].concat());
        assert!(track.write_into(&mut out[1..written.len()]).is_err());
        for cue in track.cues() {
            let alone = cue.write().unwrap();
            assert_eq!(again.parse_cue(&alone).unwrap().write().unwrap(), alone);
        }
    }
}

#[test]
fn many_ids_are_reached() {
    let mut tables = Tables::new();
    let value = (0..12_000).map(|n| n.to_string()).collect::<Vec<_>>().join(" ");
    let track = tables.parse("<tt><head><styling><style id='7' style='a b c'/></styling></head></tt>").unwrap();
    let resolved = track.resolve_referenced_style(&value).unwrap();
    assert_eq!(resolved.ids.len(), 12_003);
    assert!(resolved.style.is_some());
    assert_eq!(track.resolve_referenced_style(&" ".repeat(65_537)).unwrap_err().number(), 2);
}

#[test]
fn threads_have_tables_of_their_own_and_short_stacks() {
    let nested = format!("<tt><body>{}<p>{}a", "<div>".repeat(20), "<span tts:color='red'>".repeat(40));
    let chain = (0..256).map(|n| format!("<style id='s{n}' style='s{}'/>", n + 1)).collect::<String>();
    let chain = format!("<tt><head><styling>{chain}</styling></head></tt>");
    let work = move || {
        let mut tables = Tables::new();
        let written = tables.parse(&nested).unwrap().write().unwrap();
        assert!(written.contains("<p begin="));
        assert_eq!(tables.parse(&chain).unwrap().resolve_referenced_style("s0").unwrap().ids.len(), 257);
    };
    let start = |work| thread::Builder::new().stack_size(320 << 10).spawn(work).unwrap();
    let threads = [start(work.clone()), start(work)];
    for thread in threads {
        thread.join().unwrap();
    }
}

#[test]
fn the_names_of_extras_are_those_of_the_library() {
    let mut tables = Tables::new();
    let mut film = String::from(
        "<tt><head><styling><style id='s'/></styling><layout><region id='r'/></layout></head><body><p/></body></tt>",
    );
    for (element, count) in [("<style id='s'", 46), ("<region id='r'", 53), ("<p", 47)] {
        // every name that a list could have, each as its own value
        let names = ["tts:backgroundClip tts:backgroundColor tts:backgroundExtent tts:backgroundImage tts:backgroundOrigin tts:backgroundPosition",
            "tts:backgroundRepeat tts:border tts:bpd tts:color tts:direction tts:disparity tts:display tts:displayAlign tts:extent tts:fontFamily",
            "tts:fontKerning tts:fontSelectionStrategy tts:fontShear tts:fontSize tts:fontStyle tts:fontVariant tts:fontWeight tts:ipd",
            "tts:letterSpacing tts:lineHeight tts:lineShear tts:luminanceGain tts:opacity tts:origin tts:overflow tts:padding tts:position tts:ruby",
            "tts:rubyAlign tts:rubyPosition tts:rubyReserve tts:shear tts:showBackground tts:textCombine tts:textEmphasis tts:textOrientation",
            "tts:textOutline tts:textShadow tts:unicodeBidi tts:visibility tts:wrapOption tts:writingMode tts:zIndex style itts:forcedDisplay",
            "itts:fillLineGap"].join(" ");
        let attributes =
            names.split(' ').map(|name| format!(" {name}='{name}'")).collect::<String>() + " tts:textAlign='justify'";
        film = film.replace(element, &format!("{element}{attributes}"));
        let track = tables.parse(&film).unwrap();
        let extras = match element {
            "<p" => track.cue(0).unwrap().extras(),
            "<region id='r'" => track.regions().next().unwrap().attributes(),
            _ => track.styles().next().unwrap().extras(),
        };
        assert_eq!(extras.len(), count);
        for (name, value) in extras {
            assert_eq!(value, if name == "tts:textAlign" { "justify" } else { name });
        }
    }
}
