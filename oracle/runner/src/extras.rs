//! The attributes that are kept as they were: the Rust joins them into one text, the port has a row for each.

use reference::ttml::access::{self, P_INLINE_EXTRA_ORDER, REGION_ATTR_ORDER, STYLE_EXTRA_ORDER};

/// The Rust's list of names, in which each has its number.
pub type Names = &'static [&'static str];
pub const STYLE: Names = STYLE_EXTRA_ORDER;
pub const REGION: Names = REGION_ATTR_ORDER;
pub const INLINE: Names = P_INLINE_EXTRA_ORDER;

/// The numbers of the names, and the values; none if this is not what the Rust joins.
pub fn split(mut joined: &str, names: Names) -> Option<Vec<(usize, String)>> {
    let mut pairs = Vec::new();
    while !joined.is_empty() {
        let (name, rest) = joined.split_once("=\"")?;
        let (value, rest) = rest.split_once('"')?;
        let number = names.iter().position(|&listed| listed == name)?;
        pairs.push((number, access::decode_entities(value)));
        joined = rest.strip_prefix(' ').unwrap_or(rest);
    }
    Some(pairs)
}

/// As the Rust joins them; none if the numbers do not rise.
pub fn join(pairs: &[(usize, String)], names: Names) -> Option<String> {
    if !pairs.is_sorted_by(|(one, _), (next, _)| one < next) {
        return None;
    }
    let attrs: Option<Vec<String>> = pairs
        .iter()
        .map(|(number, value)| Some(format!("{}=\"{}\"", names.get(*number)?, access::escape_attr(value))))
        .collect();
    Some(attrs?.join(" "))
}

/// The value that this list has under a name.
pub fn value_of(joined: &str, names: Names, name: &str) -> Option<String> {
    let number = names.iter().position(|&listed| listed == name)?;
    split(joined, names)?.into_iter().find(|(n, _)| *n == number).map(|(_, value)| value)
}
