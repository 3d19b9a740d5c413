//! The elements of a text's tree as document 01 looks at them: local names, the first attribute of a name, children.

use crate::document::{Attr, Kind, Node, Refusal};
use crate::placed::Placed;
use crate::rows::Read;
use reference::ttml::access;

/// What is met on the way, or the number and place that end it.
pub type Met<A> = Result<A, Refusal>;

#[derive(Clone, Copy)]
pub struct Element<'a> {
    read: &'a Read<'a>,
    row: usize,
}

pub enum Child<'a> {
    /// A text, its entities read, or a section.
    Text(Placed),
    Element(Element<'a>),
}

/// An attribute's value, and the place of the attribute.
pub struct Value {
    pub place: usize,
    pub value: Placed,
}

/// The elements at top level.
pub fn top<'a>(read: &'a Read<'a>) -> impl Iterator<Item = Element<'a>> {
    children(read, 0, read.document.nodes.len()).filter_map(element)
}

/// "A tag's local name follows its last colon"; "names compare without regard to ASCII case"; "the first match wins".
pub fn first<'a>(mut elements: impl Iterator<Item = Element<'a>>, name: &str) -> Option<Element<'a>> {
    elements.find(|element| element.is(name))
}

/// The nodes from a row to another, without what is inside them.
fn children<'a>(read: &'a Read<'a>, from: usize, end: usize) -> impl Iterator<Item = Child<'a>> {
    let mut row = from;
    std::iter::from_fn(move || {
        if row == end {
            return None;
        }
        let here = row;
        let Node { kind, string, end, .. } = &read.document.nodes[here];
        row = *end;
        let text = &read.text[string.clone()];
        Some(match kind {
            Kind::Element => Child::Element(Element { read, row: here }),
            Kind::Text => Child::Text(Placed { place: string.start, string: decoded(text) }),
            Kind::Section => Child::Text(Placed { place: string.start, string: text.to_string() }),
        })
    })
}

fn element(child: Child) -> Option<Element> {
    if let Child::Element(element) = child { Some(element) } else { None }
}

fn decoded(text: &str) -> String {
    if text.contains('&') { access::decode_entities(text) } else { text.to_string() }
}

impl<'a> Element<'a> {
    fn node(&self) -> &'a Node {
        &self.read.document.nodes[self.row]
    }

    /// Its `<`.
    pub fn place(&self) -> usize {
        self.node().string.start - 1
    }

    pub fn local(&self) -> &'a str {
        let name = &self.read.text[self.node().string.clone()];
        name.rsplit(':').next().unwrap_or(name)
    }

    pub fn is(&self, name: &str) -> bool {
        self.local().eq_ignore_ascii_case(name)
    }

    pub fn children(&self) -> impl Iterator<Item = Child<'a>> {
        children(self.read, self.row + 1, self.node().end)
    }

    pub fn elements(&self) -> impl Iterator<Item = Element<'a>> {
        self.children().filter_map(element)
    }

    pub fn child(&self, name: &str) -> Option<Element<'a>> {
        first(self.elements(), name)
    }

    /// All attributes, with their names.
    pub fn attrs(&self) -> impl Iterator<Item = (Placed, Value)> {
        let named = |attr: &Attr| {
            let string = self.read.text[attr.name.clone()].to_string();
            (Placed { place: attr.name.start, string }, self.value(attr))
        };
        self.read.document.attrs[self.node().attrs.clone()].iter().map(named)
    }

    pub fn attr(&self, name: &str) -> Option<Value> {
        let mut attrs = self.read.document.attrs[self.node().attrs.clone()].iter();
        let found = attrs.find(|attr| self.read.text[attr.name.clone()].eq_ignore_ascii_case(name));
        found.map(|attr| self.value(attr))
    }

    fn value(&self, attr: &Attr) -> Value {
        let string = decoded(&self.read.text[attr.value.clone()]);
        Value { place: attr.name.start, value: Placed { place: attr.value.start, string } }
    }

    /// A number that is placed at this element.
    pub fn refused<A>(&self, number: u32) -> Met<A> {
        Err(Refusal { place: self.place(), number })
    }
}

impl Value {
    pub fn text(&self) -> &str {
        &self.value.string
    }

    /// A number that is placed at this attribute.
    pub fn refused<A>(&self, number: u32) -> Met<A> {
        Err(Refusal { place: self.place, number })
    }
}
