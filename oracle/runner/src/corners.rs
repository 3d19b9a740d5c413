//! Documents at the corners of document 01 and of the readings of it, and at its limits.

use crate::films::{PUBLISHED, documents};
use crate::judge::{CUES, PARAMS, REGIONS, STYLES};
use crate::layers::{colors, decimals, times};

/// A value as it stands in quote marks.
fn quoted(value: &str) -> String {
    format!("\"{}\"", value.replace('&', "&amp;").replace('"', "&quot;").replace('\r', "&#13;"))
}

/// All that are not at a limit.
pub fn corners() -> Vec<String> {
    let mut corners: Vec<String> =
        [WHOLE, TREE, TIMES, INLINE, READINGS].concat().into_iter().map(String::from).collect();
    corners.extend(INLINE.iter().map(|inline| format!("<tt><body><p>{inline}</p><p>x</p></body></tt>")));
    corners.extend(INLINE.iter().map(|inline| format!("<p xml:space='preserve'>{inline}</p>")));
    corners.extend(INLINE.iter().map(|inline| format!("<tt xml:space='preserve'><body><p tts:color='zz'>{inline}")));
    corners.extend(HEAD.iter().map(|head| format!("<tt><head>{head}</head></tt>")));
    corners.extend(
        HEAD.iter().map(|head| format!("<tt><head>{head}</head><body><p tts:zIndex='3' tts:border='4'/></body></tt>")),
    );
    corners.extend(documents());
    for text in PUBLISHED {
        corners.push(text.to_string());
        corners.push(match text.trim_start_matches('<').split([' ', '>']).next() {
            Some("styling" | "layout") => format!("<tt><head>{text}</head></tt>"),
            Some("p" | "br" | "sp") => format!("<tt><body>{text}</body></tt>"),
            _ => format!("<tt>{text}</tt>"),
        });
    }
    corners.push(published());
    corners
}

/// The examples of TTML's sections as one document.
fn published() -> String {
    let part = |name: &str| PUBLISHED.iter().find(|text| text.starts_with(name)).expect("it is published");
    format!(
        "<?xml version=\"1.0\"?>\n<tt xml:lang=\"en\" ttp:cellResolution=\"32 15\">\n<head>{}{}</head>\n{}\n</tt>",
        part("<styling"),
        part("<layout"),
        part("<body")
    )
}

/// Every corner of times, colours and sizes at each place that reads one.
pub fn values() -> Vec<String> {
    let mut texts = Vec::new();
    for (time, (frames, ticks)) in times::corners() {
        let rate = |name: &str, rate: Option<f64>| rate.map_or(String::new(), |rate| format!(" ttp:{name}='{rate}'"));
        let tt = format!("<tt{}{}>", rate("frameRate", frames), rate("tickRate", ticks));
        let v = quoted(&time);
        texts.extend([
            format!("{tt}<body begin={v}><p begin='1s'>a"),
            format!("{tt}<body><div begin={v} end={v}><p/></div><p/>"),
            format!("{tt}<body timeContainer='seq'><div dur={v}><p begin='1e3'/></div><p dur='1s'/>"),
            format!("{tt}<body><p begin={v}>a"),
            format!("{tt}<body begin='1s'><p begin='1s' end={v}>a"),
            format!("{tt}<body begin='1s'><p begin='1s' dur={v}>a"),
            format!("{tt}<body><p begin='1s'><span begin={v} end={v} dur={v}>a<span begin='1s'>b"),
            format!("<p begin={v} end={v} dur={v}>a<span begin={v}>b"),
            format!("<p begin='1s' dur={v}>a"),
            format!("<p begin='1s' end='x' dur={v}>a"),
        ]);
    }
    let each = |name: &str, v: &str, texts: &mut Vec<String>| {
        texts.extend([
            format!("<tt><body><p {name}={v}>a"),
            format!("<tt><body><p {name}={v}>a<br/>b"),
            format!("<tt><body><p><span {name}={v}>a"),
            format!("<tt><head><styling><style id='a' {name}={v}/><style id='b'/></styling></head>"),
            format!("<tt><head><layout><region id='a' {name}={v}/></layout></head>"),
            format!("<p {name}={v}><span {name}={v}>a"),
        ]);
    };
    for color in colors::corners() {
        each("tts:color", &quoted(&color), &mut texts);
        each("tts:backgroundColor", &quoted(&color), &mut texts);
    }
    for decimal in decimals::corners() {
        for unit in ["", "px", "%", " 5", "é"] {
            each("tts:fontSize", &quoted(&format!("{decimal}{unit}")), &mut texts);
        }
        for name in ["frameRate", "tickRate"] {
            texts.push(format!("<tt ttp:{name}={}><body><p begin='5f' end='7t'>a", quoted(&decimal)));
        }
    }
    texts
}

const WHOLE: &[&str] = &[
    "<tt><body><p begin=\"1s\" dur=\"500ms\">A<br/>B</p></body></tt>",
    "",
    " ",
    "x",
    "<tt/>",
    "<tt></tt>",
    "<tt><body/></tt>",
    "<tt><body><p/></body></tt>",
    "<p/>",
    "<p>",
    "<p>a</p>",
    "<tt><head/></tt>",
    "\u{FEFF}<tt/>",
    "\u{FEFF}<?xml?><tt/>",
    "<?xml?>\r\n<tt/>",
    "<tt>\r<body>\r<p>a\r\nb</p>",
    "<TT><BODY><P>a",
    "<x:tt><y:body><z:p>a",
    "<a:b:tt/>",
    "<tt:/>",
    "<:tt/>",
    "<tt:p/>",
    "<p:tt/>",
    "<a><tt/></a>",
    "<a><p/></a>",
    "<a/><tt/>",
    "<a/><p/>",
    "x<tt/>",
    "<tt/><tt xml:lang='b'/>",
    "<p>a</p><p>b</p>",
    "<ttt/>",
    "<t/>",
    "<P>a</p>",
    "<tt><p>a</p></tt>",
    "<tt><div><p>a</p></div></tt>",
    "<tt><body><tt><p>a",
];

/// Where elements end and begin, and which attribute counts.
const TREE: &[&str] = &[
    "<tt><body><d><p>a<!--c--></p><p>b</p></d></body></tt>",
    "<tt><body><p>a<!--c--></p>b</body></tt>",
    "</tt><tt/>",
    "<tt/></x><p/>",
    "<tt><body><p>a</x></y></z><p>b",
    "<tt><body><p><![CDATA[a",
    "<tt><body><p><![CDATA[ a ]]> b",
    "<tt><body><p><![CDATA[]]></p>",
    "<tt><body><?p begin='1s'?></body></tt>",
    "<tt><body><!p begin='1s'></body></tt>",
    "<tt><body><p begin>a",
    "<tt><body><p begin='1s' BEGIN='2s'>a",
    "<tt><body><p BEGIN='1s' begin='2s'>a",
    "<tt><body><p begin='x' begin='2s'>a",
    "<tt><body><p =begin begin=1s>a",
    "<tt XML:LANG='a'/>",
    "<tt xml:lang='a' xml:lang='b'/>",
    "<tt xml:lang/>",
    "<tt xml:lang=''/>",
    "<tt lang='a'/>",
    "<tt TTP:frameRate='25'><body><p begin='5f'>",
    "<tt ttp:framerate='25'><body><p begin='5f'>",
    "<tt ttp:frameRate='25'><body><p begin='5f'>",
    "<tt ittp:frameRate='25'><body><p begin='5f'>",
    "<tt ittp:frameRate='25' ttp:frameRate='50'><body><p begin='5f'>",
    "<tt ttp:frameRate='x' ttp:frameRate='50'><body><p begin='5f'>",
    "<tt ttp:frameRate='&#50;5'><body><p begin='5f'>",
    "<tt ttp:frameRate=' 25\u{3000}'><body><p begin='5f'>",
    "<tt ttp:/>",
    "<tt ttp/>",
    "<tt ttp:='x'/>",
    "<tt ttp:a:b='c'/>",
    "<tt attp:a='c'/>",
    "<tt xttp:a='c'/>",
    "<tt ttp:é='é'/>",
    "<tt ttp:a&amp;b='c'/>",
    "<tt ttp:tickRate='10'><body><p begin='5t' end='5f'>",
    "<tt><body begin='5f' ttp:frameRate='25'><p>a",
    "<tt><body><p>a<p>b</p>c</p>d",
    "<tt><body>a<p>b</p>c<br/><span>d</span></body></tt>",
    "<tt><body><head/><p>a",
    "<tt><head><body><p>a</p></body></head></tt>",
    "<tt><body><p>a<div><p>b</p></div></p></body></tt>",
    "<tt><body><p>1</p></body><body><p>2</p></body></tt>",
    "<tt><body><p>1</p></body><head><styling><style id='a'/></styling></head></tt>",
];

/// Containers: where a cue begins and ends.
const TIMES: &[&str] = &[
    "<tt><body timeContainer='seq'><p begin=\"1s\" dur=\"2s\"/><p begin=\"1s\" dur=\"1s\"/></body></tt>",
    "<tt><body><p begin='00:05'/><p begin='-1s'/></body></tt>",
    "<tt><body begin='10s'><p begin='-11s' end='-10.5s'/></body></tt>",
    "<tt><body begin='1s' end='2s' dur='1e3s'><p/></body></tt>",
    "<tt><body><div end='1e3s'><p/></div></body></tt>",
    "<tt><body><p><span end='1e3s' dur='1e3s'>a</span></p></body></tt>",
    "<tt><body><p begin='1s' end='5s' dur='9s'/></body></tt>",
    "<tt><body><p begin='5s' end='1s'/><p begin='5s' dur='-2s'/></body></tt>",
    "<tt><body timeContainer='seq'><p begin='5s' end='1s'/><p/></body></tt>",
    "<tt><body timeContainer='seq'><div><p dur='1s'/><p dur='2s'/></div><p/></body></tt>",
    "<tt><body timeContainer='seq'><div><p dur='3s'/><p dur='2s'/></div><p/></body></tt>",
    "<tt><body timeContainer='seq'><x><p dur='3s'/></x><x><p dur='-9s'/></x><p/></body></tt>",
    "<tt><body timeContainer='seq'><div dur='9s'><p dur='1s'/></div><p/></body></tt>",
    "<tt><body timeContainer='seq'><div dur='-9s'><p dur='1s'/></div><p/><x/><p/></body></tt>",
    "<tt><body timeContainer='seq'><x><p dur='1s'/><p dur='2s'/></x><p/></body></tt>",
    "<tt><body timeContainer='seq'><p dur='-5s'/><x><p dur='1s'/></x><p/></body></tt>",
    "<tt><body timeContainer='seq'><p dur='-5s'/><x/><p/></body></tt>",
    "<tt><body><div timeContainer='seq' begin='1s'><p dur='1s'/><p dur='1s'/></div></body></tt>",
    "<tt><body><x timeContainer='seq'><p dur='1s'/><p dur='1s'/></x></body></tt>",
    "<tt><body TIMECONTAINER=' Seq '><p dur='1s'/><p/></body></tt>",
    "<tt><body timeContainer='seq'><div timeContainer='seq'><div timeContainer='seq'><p dur='1s'/></div><p dur='1s'/></div><p/></body></tt>",
    "<tt><body timeContainer='seq'>a<br/><span/><p dur='1s'/><metadata>b</metadata><p/></body></tt>",
    "<tt><body begin='2562047788:0'><div begin='54s'><p begin='775807us'/><p begin='0.775807s'/><p begin='1s'/></div></body></tt>",
    "<tt><body begin='-2562047788:0'><p begin='-55s'/></body></tt>",
    "<tt><body begin='2562047788:0'><p end='55s'/></body></tt>",
    "<tt><body begin='2562047788:0'><p dur='55s'/></body></tt>",
    "<tt><body begin='2562047788:0'><p begin='-1s' end='1s' dur='999999999999999h'/></body></tt>",
    "<tt><body begin='2562047788:0'><div dur='55s'><p/></div></body></tt>",
    "<tt><body begin='2562047788:0'><div dur='55s'><p tts:color='#aé'/></div></body></tt>",
    "<tt><body begin='2562047788:0'><p><span begin='55s'/></p></body></tt>",
    "<tt><body begin='2562047788:0'><p><span begin='30s'><span begin='30s'/></span></p></body></tt>",
    "<p begin='999999999999999h' dur='1us'/>",
    "<p begin='999999999999999h' dur='1ms'/>",
    "<p begin='999999999999999h' end='x' dur='1ms'/>",
    "<p begin='1s' end='1s' dur='1e3s'/>",
    "<p begin='2s' end='1s'/>",
    "<p begin='5f' end='5t' dur='1s'><span begin='5f'>a</span></p>",
    "<p begin='1s'><span begin='1s'>a<span begin='1s'>b</span></span></p>",
    "<p><span begin='999999999999999h'><span begin='1ms'/></span></p>",
    "<tt><body><p begin='1e3s' end='0:0:0.éééé' dur='2562047788:1'/></body></tt>",
    "<tt><body><p begin='2562047788:1' end='1e3s'/></body></tt>",
    "<tt><body><p begin='1e3s'><span begin='1e3s'/></p></body></tt>",
    "<tt><body begin='2562047788:1:-60'/></tt>",
    // Timestamps at the ends of 64 bits, and around a half of them.
    "<tt><body begin='2562047788:0'><p><span begin='54.775807s'>a</span><span begin='54.775806s'>b</span></p></body></tt>",
    "<tt><body begin='-2562047788:0'><p><span begin='-54.775807s'>a</span><span begin='-54.775808s'>b</span></p></body></tt>",
    "<p><span begin='4294.967295s'>a</span><span begin='4294.967296s'>b</span><span begin='4294.967297s'>c</span></p>",
    "<p><span begin='-4294.967295s'>a</span><span begin='-4294.967296s'>b</span><span begin='-4294.967297s'>c</span></p>",
    "<p><span begin='0.000001s'>a</span><span begin='0s'>b</span><span begin='-0.000001s'>c</span></p>",
    "<p><span begin='2147.483647s'>a</span><span begin='2147.483648s'>b</span><span begin='-2147.483649s'>c</span></p>",
];

/// The content of a p: white space, breaks, spans.
const INLINE: &[&str] = &[
    " a ",
    "  ",
    "\n a \n b\t\u{C}c ",
    "a <br/> b",
    "a<br/>",
    "<br/>a",
    " <br/> ",
    "a <span> b</span> c",
    "a<span> </span>b",
    "a <span> </span> b",
    "<span>a </span><br/>",
    "<span>a <br/></span> b",
    "<span> </span>",
    "<span/>",
    "<span></span>",
    "<span><span> </span></span>",
    "a <span/>",
    "a <x> </x>",
    "a <x/><br/>",
    "<x>a </x><br/>b",
    "<x>a <br/> b</x> c",
    "a <span xml:space='preserve'> </span>",
    "<span xml:space='preserve'> a </span> b",
    "<span xml:space='preserve'> a </span>",
    "<x xml:space='preserve'> a </x>",
    "<span xml:space='default'>  a  </span>",
    "a&#32; b",
    "a &#x20;",
    "a&nbsp; ",
    "&nbsp;",
    "\u{A0} ",
    " \u{2003} ",
    "&#9;a",
    "&#13;a&#10;",
    "&#12; ",
    "<![CDATA[ a ]]> b",
    "<![CDATA[]]>",
    "a<![CDATA[ ]]>",
    "a <!-- --> b",
    "a <!----><br/>",
    "a<br>b</br>c",
    "<br><span begin='1e3s'/></br>",
    "<br begin='1e3s'/>",
    "<x begin='1e3s'>a</x>",
    "a <br/><br/> b",
    " <span begin='1s'>a</span> ",
    "a <span begin='1s'> </span>",
    "a <span begin='1s'/><br/>",
    "<span begin='1s' tts:fontWeight='bold'>a</span>",
    "<span begin='x'>a</span>",
    "<span tts:fontWeight='bold' tts:fontStyle='italic' tts:textDecoration='underline line-through'>a</span>",
    "<span tts:fontStyle='italic' tts:textDecoration='strike' tts:color='red' tts:fontFamily='F' tts:fontSize='9px'>a</span>",
    "<span tts:color='zz'>a</span>",
    "<span tts:color='zz'>a<br/>b</span>",
    "<span tts:fontFamily=''>a</span>",
    "<span tts:fontSize='x'>a</span>",
    "<span tts:fontSize='-0'>a</span>",
    "<span tts:fontSize='0'>a</span>",
    "<span tts:fontSize='0px'>a<br/>b</span>",
    "<span tts:fontSize='-0.0'>a<br/>b</span>",
    "<span tts:fontSize='0'><span>a<br/>b</span></span>",
    "<span><span tts:fontSize='0'>a<br/>b</span></span>",
    "<span tts:fontSize='0' tts:color='red'>a<br/>b</span>",
    "<span tts:fontFamily=''>a<br/>b</span>",
    "<span tts:fontFamily='' tts:fontSize='0'/>",
    "<span tts:fontSize='+5px'>a</span>",
    "<span tts:fontSize=' 5px'>a</span>",
    "<span tts:fontSize='1e5px'>a</span>",
    "<span tts:fontSize='12px 14px'>a</span>",
    "<span tts:fontSize='12.px'>a</span>",
    "<span tts:fontSize='.'>a</span>",
    "<span tts:fontSize='5é'>a</span>",
    "<span tts:fontSize='1e5' tts:color='#aé'>a</span>",
    "<span tts:color='#aé'><span tts:fontSize='1e5'/></span>",
    "<span tts:textDecoration='noUnderline'>a</span>",
    "<span tts:textDecoration='LineThrough'>a</span>",
    "<span tts:textDecoration='overstrike'>a</span>",
    "<span tts:fontWeight=' bold'>a</span>",
    "<span tts:fontStyle='OBLIQUE'>a</span>",
    "<span tts:backgroundColor='#aé'>a</span>",
    "a<span>b<span>c<span>d</span></span></span>e",
    "<span>a</span><span>b</span>",
    "<span>a <span>b </span></span> ",
    "<span><br/></span>",
    "<span>a<br/>b</span>",
    "<p>a</p>",
    "<p begin='1e3s'>a</p>b",
    "<div>a<br/></div>",
    "a<span tts:fontSize='123456px'/><span tts:fontSize='0.0000000001'/>",
    "é <span>é </span>",
    "日 \u{1F680} ",
    "a\u{85} b",
    "<span>&lt;&amp;&gt;&quot;&apos;</span>",
];

/// What stands in a head: styles and regions.
const HEAD: &[&str] = &[
    "<styling><style id='a' xml:id='b'/><style/><style xml:id=''/><style xml:id/></styling>",
    "<styling><style tts:color='#aé' tts:fontSize='1e9'/></styling>",
    "<styling><style id='a' tts:color='#aé' tts:fontSize='1234567'/></styling>",
    "<styling><style id='a' tts:backgroundColor='#aé' tts:fontSize='1234567'/></styling>",
    "<styling><style id='a' tts:fontSize='1e9px'/><style id='b' tts:fontSize='px'/><style id='c' tts:fontSize='-5px'/></styling>",
    "<styling><style id='a' tts:fontSize='80%' tts:color='#+f+f+f'/></styling>",
    "<styling><style id='a' style=' b  c '/><style id='b' style='  '/><style id='c' style='\u{3000}d\u{85}'/></styling>",
    "<styling><style id='a' tts:textAlign='justify'/><style id='b' tts:textAlign=' JUSTIFY '/><style id='c' tts:textAlign='middle'/></styling>",
    "<styling><style id='a' tts:textAlign='END'/><style id='b' tts:textAlign='\u{A0}left\u{A0}'/><style id='c' tts:textAlign='start'/></styling>",
    "<styling><style id='a' tts:zIndex='1' tts:backgroundClip='2' itts:fillLineGap='3' tts:origin='4' TTS:ORIGIN='5'/></styling>",
    "<styling><style id='a' tts:textDecoration='underline strike'/><style id='b' tts:textDecoration='lineThrough'/></styling>",
    "<styling><style id='a' tts:fontWeight='bold'/><style id='a' tts:fontStyle='oblique' style='b'/><style id='a' tts:opacity='1'/></styling>",
    "<layout><region id='a' xml:id='b'/><region/><region id=''/></layout>",
    "<layout><region id='a' tts:color='#aé' tts:fontSize='1e9' tts:textDecoration='underline' style=' b ' tts:textAlign='left'/></layout>",
    "<layout><region id='a'><style tts:origin='x'/></region><x><region id='b'/></x></layout>",
    "<layout><region id='r' tts:zIndex='1'/></layout><styling><style id='a' tts:zIndex='2'/></styling>",
    "<styling/><styling><style id='a'/></styling>",
    "<x><styling><style id='a'/></styling></x>",
    "<styling><x><style id='a'/></x><Y:STYLE ID='b'/></styling>",
    "<styling><style id='&amp;&#65;' tts:fontFamily='&quot;' tts:origin='&lt;' style='&#32;a&#32;'/></styling>",
];

/// Those that the readings name besides.
const READINGS: &[&str] = &[
    "<tt><head/><head><styling><style id='a'/></styling></head></tt>",
    "<tt><body><p begin=\"1e3f\">",
    "<tt><body><p begin=\"0:0:0:nan\">",
    "<tt><body><p begin=\"0.0000000000000000000001s\">",
    "<tt><body><p begin=\"1.000000000000000s\">",
    "<tt><body><p begin=\"0.00000000000000000000001s\">",
    "<tt><body><p begin='999999999999999ms'>",
    "<tt><body><p begin='1000000000000000ms'>",
    "<tt><body><p tts:fontSize='123456px'>",
    "<tt><body><p tts:fontSize='1234567px'>",
    "<p>a<br>b</p><p>c</p>",
    "<tt><body><p>a<br>b</p><p>c</p></body></tt>",
    "<tt><body><p tts:color=\"zz\"><span>a<br/>b</span></p></body></tt>",
    "<tt><body><p>a <span xml:space=\"preserve\"> </span></p></body></tt>",
    "<tt><body><x xml:space='preserve'><p> a </p></x></body></tt>",
    "<tt><body><p><x xml:space='preserve'> a </x></p></body></tt>",
    "<tt ittp:foo='1' ttp:activeArea='2'/>",
    "<p tts:color='red' tts:fontSize='1e9'>a</p>",
    "<tt><body><p tts:fontSize='1e9' tts:color='#aé'>a",
    "<tt><body><p tts:color='#aé'><span tts:fontSize='1e9'>a",
    "<tt><body><p tts:color='#gé'>a",
    // Whether a font stands around all of a p.
    "<tt><body><p tts:fontSize=\"0\">",
    "<tt><body><p tts:fontSize=\"0\">a</p></body></tt>",
    "<tt><body><p tts:fontSize=\"0\">a<br/>b</p></body></tt>",
    "<tt><body><p tts:fontSize='-0'>a<br/>b</p></body></tt>",
    "<tt><body><p tts:fontSize='0'><span>a<br/>b</span></p></body></tt>",
    "<tt><body><p tts:fontSize='0'><span tts:fontSize='0px'>a<br/>b</span></p></body></tt>",
    "<tt><body><p><span tts:fontSize=\"0px\">a<br/>b</span></p></body></tt>",
    "<tt><body><p><span tts:fontSize='-0'>a<br/>b</span></p></body></tt>",
    "<tt><body><p tts:fontFamily=''>a<br/>b</p></body></tt>",
    "<tt><body><p tts:fontFamily=''><span tts:fontFamily=''>a<br/>b</span></p></body></tt>",
    "<tt><body><p tts:fontSize='x'><span>a<br/>b</span></p></body></tt>",
    "<tt><body><p tts:fontSize='x'><span tts:fontSize='0'>a<br/>b</span></p></body></tt>",
];

/// At and around each limit of counts, with what else may be met there.
pub fn limits() -> Vec<String> {
    let mut texts = Vec::new();
    let around = |n: usize| n - 1..=n + 2;
    for n in around(PARAMS) {
        for rest in ["", " ttp:frameRate='1e3'", " xml:lang='a' xttp:b='c'"] {
            texts.push(format!("<tt{}{rest}>", " ttp:a".repeat(n)));
            texts.push(format!("<x/><tt{rest}{}><body><p tts:color='#aé'>", " ittp:a='b'".repeat(n)));
        }
    }
    for n in around(STYLES) {
        for last in [
            "",
            "<style id='x'/>",
            "<style/>",
            "<style id='x' tts:color='#aé'/>",
            "<style id='x' tts:fontSize='1e9'/>x",
            "<style tts:color='#aé'/>",
            "<x/>",
        ] {
            for style in ["<style id='a'/>", "<style id='a' style=' b ' tts:fontSize='1.5px' tts:origin='c'/>"] {
                let styling = format!("<styling>{}{last}</styling>", style.repeat(n));
                texts.push(format!("<tt><head>{styling}<layout>{}</layout></head>", "<region id='r'/>".repeat(258)));
                texts.push(format!("<tt><head><layout><region id='r' tts:origin='d'/></layout>{styling}</head><body><p tts:origin='e'/>"));
            }
        }
    }
    for n in around(REGIONS) {
        for last in ["", "<region/>", "<region id='x'/>", "<x id='a'/>"] {
            let layout = format!("<layout>{}{last}</layout>", "<region id='a' tts:origin='b'/>".repeat(n));
            texts.push(format!("<tt><head>{layout}</head><body><p tts:color='#aé'/>"));
            texts.push(format!(
                "<tt><head>{layout}<styling><style id='a' tts:opacity='1'/></styling></head><body><p tts:opacity='1'/>"
            ));
        }
    }
    for n in around(CUES) {
        for last in [
            "", "<p/>", "<p tts:color='#aé'/>", "<p begin='1e9s'/>", "<x/>", "<p><span begin='1e9s'/></p>",
            "<div><p>a</p></div>",
        ] {
            texts.push(format!("<tt><body>{}{last}", "<p/>".repeat(n)));
            texts.push(format!(
                "<tt><body timeContainer='seq'><div>{}</div>{last}",
                "<p dur='1s'>a<br/>b</p>".repeat(n)
            ));
        }
    }
    texts.extend(full());
    texts
}

/// As many segments, nested spans, attributes and bytes as a text has room for.
fn full() -> Vec<String> {
    let mut texts = Vec::new();
    let all = "<span begin=1s tts:fontWeight=bold tts:fontStyle=italic tts:textDecoration=underlinestrike tts:color=red tts:fontSize=1>";
    for open in [all, "<span>", "<span begin=1s>", "<x>", "<span xml:space=preserve> "] {
        for depth in [58, 59, 60, 61, 62] {
            for inside in ["", "a", "<br/>", " ", "a <br/> b", "<span>"] {
                texts.push(format!("<tt><body><p>{}{inside}", open.repeat(depth)));
                texts.push(format!(
                    "<tt><body><p>{}{inside}{}b<br/></p><p>c",
                    open.repeat(depth),
                    "</span>".repeat(depth)
                ));
                texts.push(format!("<p>{}{inside}{} ", open.repeat(depth), "</> ".repeat(depth)));
            }
        }
    }
    for piece in [
        "<br/>", "a<br/>", "<span/>", "<span tts:fontSize=1 />", "<span>a</span>", " <span> ", "<p/>", "a <!---->",
        "<x>a </x>", "<![CDATA[ ]]>", "a&amp; ", "<p x> <br/>",
    ] {
        for bytes in [2_000, 32_768, 65_535, 65_536, 65_537] {
            for before in ["<tt><body><p>", "<p xml:space=preserve>", "<tt><body><p tts:color=red><span>"] {
                let many = (bytes - before.len()) / piece.len();
                let mut text = format!("{before}{}", piece.repeat(many));
                text.extend(std::iter::repeat_n(' ', bytes - text.len()));
                texts.push(text);
            }
        }
    }
    for bytes in [65_535, 65_536, 65_537] {
        for piece in ["a", " ", "é", "日", "&amp;", "\n ", "&#32;"] {
            let many = (bytes - 40) / piece.len();
            texts.push(format!("<tt><body><p style='{}'>", piece.repeat(many)));
            texts.push(format!("<tt ttp:a='{}'/>", piece.repeat(many)));
            texts.push(format!("<tt><head><styling><style id='{}'/>", piece.repeat(many)));
        }
    }
    // Extras of every name, as many elements as fit.
    let kept: String = crate::extras::REGION.iter().map(|name| format!(" {name}=a")).collect();
    for (before, tag) in
        [("<tt><head><styling>", "style id=a"), ("<tt><head><layout>", "region id=a"), ("<tt><body>", "p")]
    {
        for many in [1, 10, 64] {
            texts.push(format!("{before}{}", format!("<{tag}{kept} />").repeat(many)));
        }
    }
    texts
}
