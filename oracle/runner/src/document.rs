//! What document 01 says of a text: its nodes and attributes with their places, or the number and place of its
//! refusal. Written from document 01's sections "Grammar" and "Limits and what is turned away" alone, as one loop over
//! a list of open elements, and it goes on past the limits: it lists all that is turned away.

use std::cmp::min;
use std::ops::Range;

#[derive(Clone, Copy, Debug, PartialEq)]
pub enum Kind {
    Text = 1,
    Element = 2,
    Section = 3,
}

pub struct Node {
    pub kind: Kind,
    /// The text's or the section's bytes, or the element's name.
    pub string: Range<usize>,
    /// The row after its subtree.
    pub end: usize,
    /// Its attributes.
    pub attrs: Range<usize>,
}

pub struct Attr {
    pub name: Range<usize>,
    /// Without quote marks; empty, after the name, if no `=` follows it.
    pub value: Range<usize>,
}

#[derive(Default)]
pub struct Document {
    pub nodes: Vec<Node>,
    pub attrs: Vec<Attr>,
    /// 6 or 8 to 11: reading ends there, in the Rust too.
    pub error: Option<Refusal>,
    /// 4, 5 or 7: the first that was met.
    pub limit: Option<Refusal>,
}

/// Place before number, so that the least is the one that wins.
#[derive(Clone, Copy, Debug, PartialEq, PartialOrd, Eq, Ord)]
pub struct Refusal {
    pub place: usize,
    pub number: u32,
}

pub const BYTES: usize = 65_536;
pub const DEPTH: usize = 64;
pub const ROWS: usize = 8_192;

impl Document {
    /// "Of 4 to 11 the earliest place wins, then the lower number."
    pub fn refusal(&self) -> Option<Refusal> {
        self.error.into_iter().chain(self.limit).min()
    }

    fn limit(&mut self, place: usize, number: u32) {
        let met = Refusal { place, number };
        self.limit = Some(self.limit.map_or(met, |first| min(first, met)));
    }

    fn node(&mut self, kind: Kind, place: usize, string: Range<usize>) {
        if self.nodes.len() >= ROWS {
            self.limit(place, 5);
        }
        let attrs = self.attrs.len()..self.attrs.len();
        self.nodes.push(Node { kind, string, end: self.nodes.len() + 1, attrs });
    }
}

/// What document 01 says of the text, whatever its length.
pub fn read(text: &[u8]) -> Document {
    let mut document = Document::default();
    if let Err(error) = Reader(text).nodes(&mut document) {
        document.error = Some(error);
    }
    document
}

struct Reader<'a>(&'a [u8]);

impl Reader<'_> {
    fn at(&self, place: usize, mark: &str) -> bool {
        self.0[place..].starts_with(mark.as_bytes())
    }

    /// The first place of the mark, from a place on.
    fn seek(&self, place: usize, mark: &str) -> Option<usize> {
        let mark = mark.as_bytes();
        let first = |at: &usize| self.0[*at] == mark[0] && self.0[*at..].starts_with(mark);
        (place..self.0.len()).find(first)
    }

    /// The place after the first mark, or the end of text.
    fn past(&self, place: usize, mark: &str) -> usize {
        self.seek(place, mark).map_or(self.0.len(), |at| at + mark.len())
    }

    /// Where the longest run without any of these bytes ends.
    fn run(&self, place: usize, without: &[u8]) -> usize {
        self.0[place..].iter().position(|b| without.contains(b)).map_or(self.0.len(), |n| place + n)
    }

    fn blanks(&self, place: usize) -> usize {
        self.0[place..].iter().position(|b| !b" \t\n\r".contains(b)).map_or(self.0.len(), |n| place + n)
    }

    /// Where the prolog ends.
    fn prolog(&self) -> usize {
        let mut place = self.blanks(0);
        loop {
            place = if self.at(place, "<?") {
                self.past(place, "?>")
            } else if self.at(place, "<!--") {
                self.past(place, "-->")
            } else if self.at(place, "<!") {
                self.past(place, ">")
            } else {
                return place;
            };
            place = self.blanks(place);
        }
    }

    fn nodes(&self, document: &mut Document) -> Result<(), Refusal> {
        // The rows of the open elements, the innermost last.
        let mut open: Vec<usize> = Vec::new();
        // A comment of the innermost content stands directly before the place.
        let mut after_comment = false;
        let mut place = self.prolog();
        while place < self.0.len() {
            if self.at(place, "<!--") {
                place = self.past(place, "-->");
                after_comment = true;
                continue;
            }
            if self.at(place, "</") {
                let Some(row) = open.pop() else {
                    return Ok(());
                };
                document.nodes[row].end = document.nodes.len();
                if !after_comment {
                    let close = self.seek(place, ">").ok_or(Refusal { place, number: 11 })?;
                    place = close + 1;
                }
            } else if self.at(place, "<![CDATA[") {
                let start = place + "<![CDATA[".len();
                let end = self.seek(start, "]]>");
                document.node(Kind::Section, place, start..end.unwrap_or(self.0.len()));
                place = end.map_or(self.0.len(), |end| end + "]]>".len());
            } else if self.at(place, "<") {
                let row = document.nodes.len();
                if open.len() >= DEPTH {
                    document.limit(place, 4);
                }
                let name = place + 1..self.run(place + 1, b" \t\n\r>/");
                document.node(Kind::Element, place, name.clone());
                if name.is_empty() {
                    return Err(Refusal { place, number: 6 });
                }
                let (after, content) = self.start_tag(name.end, document)?;
                document.nodes[row].attrs.end = document.attrs.len();
                place = after;
                if content {
                    open.push(row);
                }
            } else {
                let end = self.run(place, b"<");
                document.node(Kind::Text, place, place..end);
                place = end;
            }
            after_comment = false;
        }
        // End of text closes all open elements.
        for row in open {
            document.nodes[row].end = document.nodes.len();
        }
        Ok(())
    }

    /// The start tag after its name: where it ends, and whether content follows.
    fn start_tag(&self, name_end: usize, document: &mut Document) -> Result<(usize, bool), Refusal> {
        let mut place = self.blanks(name_end);
        while place < self.0.len() {
            match self.0[place] {
                b'>' => return Ok((place + 1, true)),
                b'/' => {
                    let after = self.blanks(place + 1);
                    let refusal = Refusal { place, number: 8 };
                    return if self.at(after, ">") { Ok((after + 1, false)) } else { Err(refusal) };
                }
                _ => place = self.attribute(place, document)?,
            }
        }
        Err(Refusal { place, number: 10 })
    }

    /// The attribute at a place: the place after it and its blanks.
    fn attribute(&self, place: usize, document: &mut Document) -> Result<usize, Refusal> {
        if document.attrs.len() >= ROWS {
            document.limit(place, 7);
        }
        let name = place..self.run(place, b" \t\n\r>/=");
        let equals = self.blanks(name.end);
        if !self.at(equals, "=") {
            let value = name.end..name.end;
            document.attrs.push(Attr { name, value });
            return Ok(equals);
        }
        let start = self.blanks(equals + 1);
        let Some(&first) = self.0.get(start) else {
            return Err(Refusal { place: equals, number: 9 });
        };
        let (value, after) = if first == b'"' || first == b'\'' {
            let end = self.run(start + 1, &[first]);
            (start + 1..end, min(end + 1, self.0.len()))
        } else {
            let end = self.run(start, b" \t\n\r>/");
            (start..end, end)
        };
        document.attrs.push(Attr { name, value });
        Ok(self.blanks(after))
    }
}
