//! Reads an SVG file as far as a drawing of the wall goes: tags, two paths of squares,
//! and lines of text.

use super::Corner;

#[derive(Clone, Debug, PartialEq)]
pub struct Drawing {
    pub lit: Vec<Corner>,
    pub unlit: Vec<Corner>,
    /// Without escapes.
    pub texts: Vec<String>,
}

/// A tag with its attributes, and what stands behind it up to the next one.
struct Tag<'a> {
    name: &'a str,
    attributes: &'a str,
    behind: &'a str,
}

pub fn read(print: &[u8]) -> Result<Drawing, &'static str> {
    let file = std::str::from_utf8(print).map_err(|_| "no text")?;
    let tags = file.split('<').skip(1).map(tag).collect::<Option<Vec<Tag>>>().ok_or("a tag without an end")?;
    let root = tags.iter().find(|tag| tag.name == "svg").ok_or("no tag svg")?;
    if attribute(root, "xmlns") != Some("http://www.w3.org/2000/svg") {
        return Err("no browser takes it for an SVG file");
    }
    if tags.iter().any(|tag| tag.attributes.contains("href=") || tag.name == "script") {
        return Err("it needs something else");
    }
    Ok(Drawing { lit: path(&tags, "lit")?, unlit: path(&tags, "unlit")?, texts: texts(&tags)? })
}

fn tag(from: &str) -> Option<Tag<'_>> {
    let (tag, behind) = from.split_once('>')?;
    let end = tag.find(|c: char| c.is_ascii_whitespace()).unwrap_or(tag.len());
    let (name, attributes) = tag.split_at(end);
    Some(Tag { name, attributes, behind })
}

/// What is quoted behind the name of an attribute.
fn attribute<'a>(tag: &Tag<'a>, name: &str) -> Option<&'a str> {
    let mut quoted = tag.attributes.split('"');
    while let (Some(before), Some(value)) = (quoted.next(), quoted.next()) {
        if before.trim().trim_end_matches('=').trim_end() == name {
            return Some(value);
        }
    }
    None
}

/// The squares of the one path of this class.
fn path(tags: &[Tag], class: &str) -> Result<Vec<Corner>, &'static str> {
    let is_asked_for = |tag: &&Tag| tag.name == "path" && attribute(tag, "class") == Some(class);
    let paths: Vec<&Tag> = tags.iter().filter(is_asked_for).collect();
    let [path] = paths[..] else { return Err("not one path of each class") };
    let mut squares = attribute(path, "d").ok_or("a path without d")?.split('M').map(str::trim);
    if squares.next() != Some("") {
        return Err("a path that does not begin with M");
    }
    squares.map(|square| corner(square).ok_or("a dot that is no square of 3")).collect()
}

fn corner(square: &str) -> Option<Corner> {
    let (x, y) = square.strip_suffix("h3v3h-3z")?.split_once(' ')?;
    Some((x.parse().ok()?, y.parse().ok()?))
}

/// What stands in each of the tags `text`, which have no other within.
fn texts(tags: &[Tag]) -> Result<Vec<String>, &'static str> {
    let pairs = tags.iter().zip(tags.iter().skip(1)).filter(|(tag, _)| tag.name == "text");
    pairs
        .map(|(tag, next)| if next.name == "/text" { plain(tag.behind) } else { Err("a tag within the text") })
        .collect()
}

/// The three escapes taken back; there are no others, and no `>` without one. (What is
/// behind a `<` was taken for a tag.)
fn plain(text: &str) -> Result<String, &'static str> {
    if text.contains('>') {
        return Err("a > that is not escaped");
    }
    let mut pieces = text.split('&');
    let mut plain = pieces.next().unwrap_or_default().to_string();
    for piece in pieces {
        let (name, rest) = piece.split_once(';').ok_or("an escape without an end")?;
        plain.push(match name {
            "lt" => '<',
            "gt" => '>',
            "amp" => '&',
            _ => return Err("an escape that is none of the three"),
        });
        plain += rest;
    }
    Ok(plain)
}
