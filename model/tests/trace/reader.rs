//! A strict reader of pages: one root, tags that nest, quoted attributes, each once, known names,
//! and no entities but the four of the text.

/// An element with the text that stands directly in it, entities resolved.
#[derive(Debug, Default)]
pub struct Element {
    pub name: String,
    pub attributes: Vec<(String, String)>,
    pub text: String,
    pub parent: Option<usize>,
}

impl Element {
    pub fn get(&self, name: &str) -> Option<&str> {
        let mut all = self.attributes.iter();
        all.find(|attribute| attribute.0 == name)
            .map(|attribute| attribute.1.as_str())
    }

    pub fn has_class(&self, class: &str) -> bool {
        let own = self.get("class").unwrap_or("");
        own.split(' ').any(|word| word == class)
    }

    pub fn number(&self, name: &str) -> i32 {
        let value = self.get(name).and_then(|value| value.parse().ok());
        value.unwrap_or_else(|| panic!("no number {name} in {self:?}"))
    }
}

/// Names that a page may use with an end tag.
const PAIRED: [&str; 19] = [
    "html", "head", "title", "style", "body", "h1", "h2", "p", "section", "div", "ul", "li", "svg",
    "defs", "g", "use", "text", "rect", "path",
];
/// Names that may end in their own tag: a page's other names need an end tag.
const SINGLE: [&str; 5] = ["meta", "use", "rect", "path", "circle"];

/// The elements of a page in the order of their start tags, or what is wrong.
pub fn read(page: &str) -> Result<Vec<Element>, String> {
    let mut rest = page.strip_prefix("<!DOCTYPE html>\n").unwrap_or(page);
    let mut elements: Vec<Element> = Vec::new();
    let mut open: Vec<usize> = Vec::new();
    while !rest.is_empty() {
        let Some(inside) = rest.strip_prefix('<') else {
            let end = rest.find('<').unwrap_or(rest.len());
            add_text(&mut elements, open.last(), &rest[..end])?;
            rest = &rest[end..];
            continue;
        };
        let end = inside.find('>').ok_or("a tag without end")?;
        let tag = &inside[..end];
        rest = &inside[end + 1..];
        if let Some(name) = tag.strip_prefix('/') {
            let last = open.pop().ok_or("an end tag too many")?;
            if elements[last].name != name {
                return Err(format!("</{name}> ends {:?}", elements[last]));
            }
        } else {
            start(&mut elements, &mut open, tag)?;
        }
    }
    match open.is_empty() && !elements.is_empty() {
        true => Ok(elements),
        false => Err("an element without end".to_string()),
    }
}

fn add_text(elements: &mut [Element], open: Option<&usize>, text: &str) -> Result<(), String> {
    match open {
        Some(last) => elements[*last].text += &resolve(text)?,
        None if text.trim().is_empty() => {}
        None => return Err(format!("text outside of the root: {text:?}")),
    }
    Ok(())
}

fn start(elements: &mut Vec<Element>, open: &mut Vec<usize>, tag: &str) -> Result<(), String> {
    let (tag, single) = match tag.strip_suffix('/') {
        Some(tag) => (tag, true),
        None => (tag, false),
    };
    let (name, attributes) = tag.split_once(' ').unwrap_or((tag, ""));
    let known: &[&str] = if single { &SINGLE } else { &PAIRED };
    if !known.contains(&name) {
        return Err(format!("<{tag}> is unknown or lacks its end tag"));
    }
    if open.is_empty() && !elements.is_empty() {
        return Err(format!("a second root <{tag}>"));
    }
    elements.push(Element {
        name: name.to_string(),
        attributes: read_attributes(attributes)?,
        text: String::new(),
        parent: open.last().copied(),
    });
    if !single {
        open.push(elements.len() - 1);
    }
    Ok(())
}

fn read_attributes(mut rest: &str) -> Result<Vec<(String, String)>, String> {
    let mut all: Vec<(String, String)> = Vec::new();
    while !rest.is_empty() {
        let wrong = || format!("attributes {rest:?}");
        let (name, after) = rest.split_once("=\"").ok_or_else(wrong)?;
        let (value, after) = after.split_once('"').ok_or_else(wrong)?;
        let letters = |c: char| c.is_ascii_lowercase() || c.is_ascii_digit() || c == '-';
        if name.is_empty() || !name.chars().all(letters) || all.iter().any(|a| a.0 == name) {
            return Err(wrong());
        }
        all.push((name.to_string(), resolve(value)?));
        rest = match after.strip_prefix(' ') {
            Some(next) if !next.is_empty() => next,
            None if after.is_empty() => after,
            _ => return Err(wrong()),
        };
    }
    Ok(all)
}

/// Text with its entities resolved; no bare `<`, `>` or `&`, no control character but line feeds.
fn resolve(text: &str) -> Result<String, String> {
    let mut parts = text.split('&');
    let mut resolved = parts.next().unwrap_or("").to_string();
    if text.contains(['<', '>']) || text.chars().any(|c| c.is_control() && c != '\n') {
        return Err(format!("a character that must not stand in {text:?}"));
    }
    for part in parts {
        let (name, after) = part.split_once(';').ok_or("an entity without end")?;
        resolved.push(match name {
            "amp" => '&',
            "lt" => '<',
            "gt" => '>',
            "quot" => '"',
            other => return Err(format!("entity {other:?}")),
        });
        resolved += after;
    }
    Ok(resolved)
}
