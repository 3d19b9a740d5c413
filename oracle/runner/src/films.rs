//! Caption documents, and published examples of XML and TTML.

/// A film: a head with styles and regions, then cues until it has about so many bytes. Well-formed XML.
pub fn film(bytes: usize) -> String {
    let mut film = String::from(HEAD);
    let lines = [
        ("The ferry leaves at dawn,", "and nobody on the quay has slept."),
        (
            "Wait for me by the <span tts:fontStyle=\"italic\">old</span> lighthouse;",
            "I will bring bread &amp; a lamp.",
        ),
        ("&#x2013; Où étais-tu hier soir ?", "&#x2013; À la gare, comme toujours."),
        ("<span style=\"s2\">&lt;thunder&gt;</span>", "It&apos;s only the harbour."),
        ("Tell her it was \"never\" about money.", "<!-- pause -->Never."),
        ("港の灯りが見えるか？", "ああ、見える。"),
    ];
    let mut n = 0;
    loop {
        let (first, second) = lines[n % lines.len()];
        let (begin, end) = (n * 3_200 + 1_040, n * 3_200 + 3_960);
        let (style, region) = (["s1", "s2", "s1"][n % 3], ["bottom", "bottom", "top", "bottom"][n % 4]);
        let clock = |ms: usize| {
            format!("{:02}:{:02}:{:02}.{:03}", ms / 3_600_000, ms / 60_000 % 60, ms / 1_000 % 60, ms % 1_000)
        };
        let cue = format!(
            "      <p xml:id=\"c{n}\" begin=\"{}\" end=\"{}\" region=\"{region}\" style=\"{style}\">{first}<br/>{second}</p>\n",
            clock(begin),
            clock(end),
        );
        if n > 0 && film.len() + cue.len() + TAIL.len() > bytes {
            break;
        }
        film.push_str(&cue);
        n += 1;
    }
    film.push_str(TAIL);
    film
}

const HEAD: &str = r##"<?xml version="1.0" encoding="UTF-8"?>
<!-- Captions, first reel -->
<tt xmlns="http://www.w3.org/ns/ttml" xmlns:tts="http://www.w3.org/ns/ttml#styling" xmlns:ttp="http://www.w3.org/ns/ttml#parameter" ttp:frameRate="25" xml:lang="en">
  <head>
    <styling>
      <style xml:id="s1" tts:color="#FFFFFF" tts:fontSize="80%" tts:fontFamily="proportionalSansSerif"/>
      <style xml:id="s2" style="s1" tts:color="yellow" tts:fontStyle="italic"/>
    </styling>
    <layout>
      <region xml:id="bottom" tts:origin="10% 80%" tts:extent="80% 15%" tts:displayAlign="after" tts:textAlign="center"/>
      <region xml:id="top" tts:origin="10% 5%" tts:extent="80% 15%" tts:displayAlign="before"/>
    </layout>
  </head>
  <body>
    <div>
"##;

const TAIL: &str = "    </div>\n  </body>\n</tt>\n";

/// A short one: about 600 bytes.
pub fn short_film() -> String {
    r#"<?xml version="1.0" encoding="UTF-8"?>
<tt xmlns="http://www.w3.org/ns/ttml" xmlns:tts="http://www.w3.org/ns/ttml#styling" xml:lang="en">
  <head><styling><style xml:id="s1" tts:color="white" tts:fontSize="80%"/></styling></head>
  <body>
    <div style="s1">
      <p begin="00:00:01.000" end="00:00:03.500">Wait for me<br/>by the old lighthouse.</p>
      <p begin="00:00:04.000" end="00:00:06.250">I will bring <span tts:fontStyle="italic">bread</span> &amp; a lamp.</p>
      <p begin="00:00:07.000" dur="2s">It&apos;s only the harbour.</p>
    </div>
  </body>
</tt>
"#
    .to_string()
}

/// A film with everything in it: prolog, parameters, chains of styles, regions, extras, both kinds of containers, each form of a time, timed
/// spans, every wrapper, kept and joined white space, entities, sections, comments, elements that no reader knows.
pub const EVERYTHING: &str = r##"<?xml version="1.0" encoding="UTF-8"?>
<!DOCTYPE tt><!-- all of it -->
<tt xmlns="http://www.w3.org/ns/ttml" xml:lang="en-GB" xml:space="default" ttp:frameRate="25" ttp:tickRate="10000000" ttp:cellResolution="32 15" ittp:activeArea="10% 10% 80% 80%">
<head><metadata><ttm:title>Quay &amp; ferry</ttm:title></metadata>
<styling>
<style xml:id="base" tts:color="white" tts:fontFamily="Arial, &quot;Noto&quot;" tts:fontSize="80%" tts:textAlign="center" tts:opacity="0.9"/>
<style xml:id="loud" style=" base " tts:fontWeight="bold" tts:backgroundColor="rgb(16, 32,48)" tts:lineHeight="125%"/>
<style id="far" style="loud base gone" tts:fontStyle="oblique" tts:textDecoration="underline line-through" tts:color="#12345678"/>
<style xml:id="far" tts:textAlign="right" itts:fillLineGap="true"/><style tts:color="red"/>
</styling>
<layout>
<region xml:id="low" style="base" tts:origin="10% 80%" tts:extent="80% 15%" tts:displayAlign="after" tts:color="#ff0"/>
<region xml:id="high" tts:origin="10% 5%" tts:zIndex="2" tts:fontSize="1.50px" tts:textDecoration="lineThrough"/><region tts:origin="0"/>
</layout></head>
<body begin="10s" timeContainer="seq" region="low">
<div begin="00:00:05" dur="20s" style="base">
<p begin="-1.5s" end="00:00:02:10" region="high" style="far loud">The ferry <span tts:fontWeight="bold"> leaves </span> at
 dawn,<br/>and <span tts:fontStyle="italic">nobody</span> on the <x>quay <!-- pause -->wall</x> has slept.</p>
<p begin="50f" dur="1500ms" tts:origin="5% 5%" tts:color="lime" tts:fontFamily="Courier">&lt;thunder&gt; &#x2013; &#233;t&#xE9; &nbsp;&AMP;&#xD800;&apos;&quot;</p>
</div>
<div timeContainer="par"><p begin="30000000t" end="0.1h">a</p><p begin="0.5m" dur="9s"/><p begin="never" end="5">b</p></div>
<p dur="4s" xml:space="preserve">  kept  <span begin="1s">one <span begin="500ms" tts:color="aqua">two</span></span>
	<![CDATA[<b> & ]] > c]]> </p>
<p begin="1s" end="3s"><span tts:fontWeight="bold" tts:fontStyle="italic" tts:textDecoration="underline strike" tts:color="#0a0B0c" tts:fontFamily="Mono" tts:fontSize="-0.25em">all</span><br/><span tts:fontSize="12.5px"> size</span><span tts:fontFamily="">&#32;</span></p>
<p begin="2s" dur="1s" tts:zIndex="3" tts:border="1px solid" itts:forcedDisplay="true">港の灯り 🚀<!-- the tag closes the body --></p><p>last</p>
</body></tt><!-- end -->
"##;

/// Documents of several makers, to be damaged.
pub fn documents() -> Vec<String> {
    let mut documents = vec![short_film(), film(2_600)];
    documents.extend([PREFIXED, RAGGED, NESTED, CUE].map(String::from));
    documents
}

/// Prefixed names, single quote marks, a document type, sections and comments everywhere.
const PREFIXED: &str = r#"<?xml version='1.0'?>
<!DOCTYPE tt SYSTEM "tt.dtd">
<?xml-stylesheet href="captions.css" type='text/css'?>
<tt:tt xmlns:tt='http://www.w3.org/2006/10/ttaf1' xmlns:tts='http://www.w3.org/2006/10/ttaf1#styling' xml:lang='de' xml:space='preserve'>
<!-- head --><tt:head><tt:metadata><ttm:title xmlns:ttm='http://www.w3.org/2006/10/ttaf1#metadata'>Fähre &#38; Kai</ttm:title></tt:metadata>
<tt:styling><tt:style id='gelb' tts:color='#ffff00ff'/><tt:style id='kursiv' style='gelb' tts:fontStyle='italic'></tt:style></tt:styling></tt:head>
<tt:body tts:textAlign='center'><tt:div begin='10s'><!-- erste Szene -->
<tt:p begin='1s' dur='2.5s' style='gelb'><![CDATA[Größe < 5 & > 3]]><tt:br/>&#8222;Komm&#8220;<!-- leise --></tt:p>
<tt:p begin='4s' end='6s'>a&nbsp;b &unknown; &#xD800; & c<tt:span style='kursiv'> d </tt:span></tt:p></tt:div></tt:body></tt:tt><!-- Ende -->
"#;

/// What readers meet in the wild: no quote marks, no values, blanks everywhere, unclosed and wrongly closed tags.
const RAGGED: &str = "\n\t <TT xml:lang = en\r\n>\r\n<Head/ ><BODY  \n><Div =x ==y a=b=c d e = 'f\"g' h=\"i'j\">\r\n\
    <P begin=00:00:01:05 end = 75f region>one<br>two<BR / >three</p></Span ><P BEGIN='5' ><i>four</b></p x>\
    <p begin=\"1s\">five <!-- > -- --> six<!----></p><p>seven<![CDATA[ ]] > ]>]]> eight</p  ></div  ></body>";

/// Spans in spans, timed spans, metadata that no reader knows, ruby.
const NESTED: &str = r##"<tt xmlns="http://www.w3.org/ns/ttml" xmlns:tts="http://www.w3.org/ns/ttml#styling" xmlns:itts="http://www.w3.org/ns/ttml/profile/imsc1#styling" xmlns:ittp="http://www.w3.org/ns/ttml/profile/imsc1#parameter" ittp:activeArea="50% 50% 80% 80%" xml:lang="ja"><head><metadata><smpte:image xmlns:smpte="http://www.smpte-ra.org/schemas/2052-1/2010/smpte-tt" imagetype="PNG" encoding="Base64" xml:id="i1">iVBORw0KGgo=</smpte:image></metadata><layout><region xml:id="r1"><style tts:origin="5% 5%"/><style tts:extent="90% 90%"/></region></layout></head><body timeContainer="seq"><div region="r1"><p begin="0.5s" dur="100f" itts:fillLineGap="true"><span tts:color="rgb(255,0,0)" begin="0s" end="1s">赤<span tts:color="#00FF00" tts:fontWeight="bold">緑<span tts:textDecoration="underline lineThrough">青</span></span></span><br/><span tts:ruby="container"><span tts:ruby="base">漢字</span><span tts:ruby="text">かんじ</span></span></p><p begin="1000000t" xml:space="preserve">  kept  <set tts:color="blue"/>  blanks	</p></div></body></tt>"##;

/// A single cue.
const CUE: &str = "<p begin=\"00:00:01.000\" end=\"00:00:02.000\">A<br/>B &lt; C</p>";

/// The snippets of the XML 1.0 recommendation, and of TTML's, that stand in this grammar in some way.
pub const PUBLISHED: &[&str] = &[
    // XML 1.0, 2.1, 2.8
    "<?xml version=\"1.0\"?>\n<greeting>Hello, world!</greeting>\n",
    "<greeting>Hello, world!</greeting>",
    "<?xml version=\"1.0\"?> <!DOCTYPE greeting SYSTEM \"hello.dtd\"> <greeting>Hello, world!</greeting>",
    "<?xml version=\"1.0\" encoding=\"UTF-8\" ?>\n<!DOCTYPE greeting [\n  <!ELEMENT greeting (#PCDATA)>\n]>\n<greeting>Hello, world!</greeting>",
    // 2.5, 2.6, 2.7
    "<!-- declarations for <head> & <body> -->",
    "<a><!-- declarations for <head> & <body> --></a>",
    "<!-- B+, B, or B--->",
    "<?xml-stylesheet href=\"mystyle.css\" type=\"text/css\"?>",
    "<![CDATA[<greeting>Hello, world!</greeting>]]>",
    "<a><![CDATA[<greeting>Hello, world!</greeting>]]></a>",
    // 2.9
    "<?xml version=\"1.0\" standalone='yes'?>",
    // 2.10, 2.12
    "<poem xml:space=\"default\"><pre xml:space=\"preserve\"> a\n  b </pre></poem>",
    "<p xml:lang=\"en\">The quick brown fox jumps over the lazy dog.</p>",
    "<p xml:lang=\"en-GB\">What colour is it?</p>\n<p xml:lang=\"en-US\">What color is it?</p>",
    "<sp who=\"Faust\" desc='leise' xml:lang=\"de\">\n  <l>Habe nun, ach! Philosophie,</l>\n  <l>Juristerei, und Medizin</l>\n  <l>und leider auch Theologie</l>\n  <l>durchaus studiert mit heißem Bemüh'n.</l>\n</sp>",
    // 3.1
    "<termdef id=\"dt-dog\" term=\"dog\">",
    "<termdef id=\"dt-dog\" term=\"dog\">dog</termdef>",
    "</termdef>",
    "<IMG align=\"left\"\n src=\"http://www.w3.org/Icons/WWW/w3c_home\" />",
    "<br></br>",
    "<br/>",
    // 4.1, 4.6, appendix D
    "<a>Type <key>less-than</key> (&#x3C;) to save options.\nThis document was prepared on &docdate; and\nis classified &security-level;.</a>",
    "<a>&lt; &gt; &amp; &apos; &quot; &#38;#60; &#38;#38; &#39; &#34;</a>",
    "<p>An ampersand (&#38;#38;) may be escaped\nnumerically (&#38;#38;#38;) or with a general entity\n(&amp;amp;).</p>",
    "<p>An ampersand (&#38;) may be escaped\nnumerically (&#38;#38;) or with a general entity\n(&amp;amp;).</p>",
    "<?xml version='1.0'?>\n<!DOCTYPE test [\n<!ELEMENT test (#PCDATA) >\n<!ENTITY % xx '&#37;zz;'>\n<!ENTITY % zz '&#60;!ENTITY tricky \"error-prone\" >' >\n%xx;\n]>\n<test>This sample shows a &tricky; method.</test>",
    "<!DOCTYPE foo [ \n<!ENTITY x \"&lt;\">\n]>\n<foo attr=\"&x;\"/>",
    // Namespaces in XML 1.0
    "<x xmlns:edi='http://ecommerce.example.org/schema'>\n  <!-- the \"price\" element's namespace is http://ecommerce.example.org/schema -->\n  <edi:price units='Euro'>32.18</edi:price>\n</x>",
    "<?xml version=\"1.0\"?>\n<html:html xmlns:html='http://www.w3.org/1999/xhtml'>\n  <html:head><html:title>Frobnostication</html:title></html:head>\n  <html:body><html:p>Moved to \n    <html:a href='http://frob.example.com'>here.</html:a></html:p></html:body>\n</html:html>",
    // TTML
    "<tt xml:lang=\"\" xmlns=\"http://www.w3.org/ns/ttml\"/>",
    "<tt xml:lang=\"\" xmlns=\"http://www.w3.org/ns/ttml\">\n  <head>\n    <metadata/>\n    <styling/>\n    <layout/>\n  </head>\n  <body/>\n</tt>",
    "<tt xml:lang=\"en\" xmlns=\"http://www.w3.org/ns/ttml\" xmlns:ttm=\"http://www.w3.org/ns/ttml#metadata\">\n  <head>\n    <metadata>\n      <ttm:title>Timed Text TTML Example</ttm:title>\n      <ttm:copyright>The Authors (c) 2006</ttm:copyright>\n    </metadata>\n  </head>\n</tt>",
    "<styling xmlns:tts=\"http://www.w3.org/ns/ttml#styling\">\n  <!-- s1 specifies default color, font, and text alignment -->\n  <style xml:id=\"s1\"\n    tts:color=\"white\"\n    tts:fontFamily=\"proportionalSansSerif\"\n    tts:fontSize=\"22px\"\n    tts:textAlign=\"center\"\n  />\n  <!-- alternative using yellow text but otherwise the same as style s1 -->\n  <style xml:id=\"s2\" style=\"s1\" tts:color=\"yellow\"/>\n  <!-- a style based on s1 but justified to the right -->\n  <style xml:id=\"s1Right\" style=\"s1\" tts:textAlign=\"end\" />     \n</styling>",
    "<layout xmlns:tts=\"http://www.w3.org/ns/ttml#styling\">\n  <region xml:id=\"subtitleArea\"\n    style=\"s1\"\n    tts:extent=\"560px 62px\"\n    tts:padding=\"5px 3px\"\n    tts:backgroundColor=\"black\"\n    tts:displayAlign=\"after\"\n  />\n</layout>",
    "<body region=\"subtitleArea\">\n  <div>\n    <p xml:id=\"subtitle1\" begin=\"0.76s\" end=\"3.45s\">\n      It seems a paradox, does it not,\n    </p>\n    <p xml:id=\"subtitle2\" begin=\"5.0s\" end=\"10.0s\">\n      that the image formed on<br/>\n      the Retina should be inverted?\n    </p>\n    <p xml:id=\"subtitle3\" begin=\"10.0s\" end=\"16.0s\" style=\"s2\">\n      It is puzzling, why is it<br/>\n      we do not see things upside-down?\n    </p>\n  </div>\n</body>",
    "<p region=\"r1\">\n  <span tts:backgroundColor=\"purple\">\n    Twinkle, twinkle, little bat!<br/>\n  </span>\n  <span tts:color=\"white\">\n    How <span tts:fontStyle=\"italic\">I wonder</span> where you're at!\n  </span>\n</p>",
];
