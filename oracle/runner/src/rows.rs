//! The tree of a text, which `document.rs` says and the Rust is held to, and its rows in the port's three tables: places
//! by document 01, strings by the Rust.

use crate::compare::{Esc, Run};
use crate::document::{self, Attr, BYTES, Document, Kind, Node, Refusal};
use reference::ttml::access::{self, Tree};
use std::fmt::{self, Debug, Formatter};

/// A text that has a tree, by document 01 and by the Rust.
pub struct Read<'a> {
    pub text: &'a str,
    pub document: Document,
    pub tree: Vec<Tree>,
}

/// A text in a report: a long one is cut.
pub struct Input<'a>(pub &'a [u8]);

impl Debug for Input<'_> {
    fn fmt(&self, f: &mut Formatter) -> fmt::Result {
        let text = self.0;
        if text.len() > 600 {
            write!(f, "{:?} .. {:?}, {} bytes", Esc(&text[..300]), Esc(&text[text.len() - 100..]), text.len())
        } else {
            write!(f, "{:?}", Esc(text))
        }
    }
}

/// What a text is, up to its tree.
pub enum Reading<'a> {
    Tree(Read<'a>),
    /// 2 to 11.
    Refused(Refusal),
    /// Document 01 and the Rust do not say the same: what the Rust says, and what document 01.
    Differs(String, String),
}

pub fn read(text: &[u8]) -> Reading<'_> {
    let refused = |number, place| Reading::Refused(Refusal { place, number });
    if text.len() > BYTES {
        return refused(2, 0);
    }
    let text = match str::from_utf8(text) {
        Ok(text) => text,
        Err(e) => return refused(3, e.valid_up_to()),
    };
    let document = document::read(text.as_bytes());
    let tree = access::parse_xml(text);
    // The Rust has no limits: it errs where document 01 says 6 or 8 to 11, whatever else is met before.
    let same = match &tree {
        Ok(tree) => document.error.is_none() && same_tree(text, &document, tree),
        Err(_) => document.error.is_some(),
    };
    if !same {
        return Reading::Differs(format!("{:?}", tree.map_err(|_| "an error")), format!("{:?}", document.refusal()));
    }
    match document.refusal() {
        Some(refusal) => Reading::Refused(refusal),
        None => Reading::Tree(Read { text, document, tree: tree.unwrap_or_default() }),
    }
}

/// The same; that the two differ counts as a difference.
pub fn read_in<'a>(run: &mut Run, text: &'a [u8]) -> Option<Result<Read<'a>, Refusal>> {
    match read(text) {
        Reading::Tree(read) => Some(Ok(read)),
        Reading::Refused(refusal) => Some(Err(refusal)),
        Reading::Differs(rust, said) => {
            run.same("document 01", format_args!("{:?}", Input(text)), rust, said);
            None
        }
    }
}

/// Is the Rust's tree that of document 01: kinds, nesting, names, values and texts?
fn same_tree(text: &str, document: &Document, tree: &[Tree]) -> bool {
    let mut row = 0;
    tree.iter().all(|node| same_node(text, document, node, &mut row)) && row == document.nodes.len()
}

fn same_node(text: &str, document: &Document, tree: &Tree, row: &mut usize) -> bool {
    let Some(Node { kind, string, end, attrs }) = document.nodes.get(*row) else {
        return false;
    };
    *row += 1;
    let string = &text[string.clone()];
    match (kind, tree) {
        (Kind::Text, Tree::Text(t)) => access::decode_entities(string) == *t && *row == *end,
        (Kind::Section, Tree::Text(t)) => string == t && *row == *end,
        (Kind::Element, Tree::Element { name, attrs: named, children }) => {
            let attrs = &document.attrs[attrs.clone()];
            let same_attr = |(attr, (name, value)): (&Attr, &(String, String))| {
                text[attr.name.clone()] == *name && access::decode_entities(&text[attr.value.clone()]) == *value
            };
            string == name
                && attrs.len() == named.len()
                && attrs.iter().zip(named).all(same_attr)
                && children.iter().all(|child| same_node(text, document, child, row))
                && *row == *end
        }
        _ => false,
    }
}

/// The cells that are not zero by necessity: all rows, and the strings as far as the text goes.
#[derive(Default)]
pub struct Rows {
    pub nodes: Vec<u32>,
    pub attrs: Vec<u32>,
    pub strings: Vec<u8>,
}

impl Rows {
    pub fn clear(&mut self) {
        self.nodes.clear();
        self.attrs.clear();
        self.strings.clear();
    }

    /// The cells of a tree.
    pub fn fill(&mut self, read: &Read) {
        self.clear();
        self.strings.resize(read.text.len(), 0);
        self.nodes(&read.document, &read.tree);
    }

    fn nodes(&mut self, document: &Document, tree: &[Tree]) {
        for node in tree {
            let Node { kind, string, end, attrs } = &document.nodes[self.nodes.len() / 6];
            let place = string.start - (*kind == Kind::Element) as usize;
            let (bytes, children) = match node {
                Tree::Text(text) => (text, None),
                Tree::Element { name, children, .. } => (name, Some(children)),
            };
            let owned = if children.is_some() { attrs.clone() } else { 0..0 };
            let row = [*kind as usize, *end, place, bytes.len(), owned.start, owned.len()];
            self.nodes.extend(row.map(|cell| cell as u32));
            self.lay(string.start, bytes);
            if let Tree::Element { attrs: named, .. } = node {
                for (attr, (name, value)) in document.attrs[owned].iter().zip(named) {
                    let row = [attr.name.start, name.len(), attr.value.start, value.len()];
                    self.attrs.extend(row.map(|cell| cell as u32));
                    self.lay(attr.name.start, name);
                    self.lay(attr.value.start, value);
                }
            }
            self.nodes(document, children.map_or(&[], |children| &children[..]));
        }
    }

    fn lay(&mut self, place: usize, string: &str) {
        self.strings[place..place + string.len()].copy_from_slice(string.as_bytes());
    }
}
