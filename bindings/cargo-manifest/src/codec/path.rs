//! Key paths, as `target."cfg(unix)".dependencies.b` and `package.authors[0]`.

/// One step of a [`KeyPath`](crate::KeyPath).
#[derive(Clone, Debug, PartialEq, Eq, Hash, PartialOrd, Ord)]
pub enum Step {
    /// To the value of a key of a table.
    Key(String),
    /// To an item of an array, from 0 on.
    Index(usize),
}

impl From<&str> for Step {
    fn from(key: &str) -> Step {
        Step::Key(key.to_owned())
    }
}

impl From<String> for Step {
    fn from(key: String) -> Step {
        Step::Key(key)
    }
}

impl From<usize> for Step {
    fn from(index: usize) -> Step {
        Step::Index(index)
    }
}

/// The steps of a key path. There are none where the text is no key path.
pub(crate) fn steps(path: &str) -> Vec<Step> {
    let mut steps = Vec::new();
    let mut left = path;
    while !left.is_empty() {
        let Some((step, rest)) = step(left) else { return Vec::new() };
        steps.push(step);
        left = rest.strip_prefix('.').unwrap_or(rest);
    }
    steps
}

/// The first step, and what stands after it.
fn step(path: &str) -> Option<(Step, &str)> {
    if let Some(rest) = path.strip_prefix('[') {
        let (place, rest) = rest.split_once(']')?;
        return Some((Step::Index(place.parse().ok()?), rest));
    }
    if let Some(rest) = path.strip_prefix('"') {
        let (key, rest) = quoted(rest)?;
        return Some((Step::Key(key), rest));
    }
    let end = path.find(['.', '[']).unwrap_or(path.len());
    let (key, rest) = path.split_at(end);
    Some((Step::Key(key.to_owned()), rest))
}

/// A key between quotes, of which the first was read, and what stands after it.
fn quoted(path: &str) -> Option<(String, &str)> {
    let mut key = String::new();
    let mut chars = path.chars();
    loop {
        key.push(match chars.next()? {
            '"' => return Some((key, chars.as_str())),
            '\\' => match chars.next()? {
                'u' => {
                    let (digits, rest) = chars.as_str().split_at_checked(4)?;
                    chars = rest.chars();
                    char::from_u32(u32::from_str_radix(digits, 16).ok()?)?
                }
                other => other,
            },
            other => other,
        });
    }
}

/// A key as the library writes it in a key path: between quotes where it is no bare key.
fn push_key(key: &str, text: &mut String) {
    let is_bare = |byte: u8| byte.is_ascii_alphanumeric() || byte == b'_' || byte == b'-';
    if !key.is_empty() && key.bytes().all(is_bare) {
        text.push_str(key);
        return;
    }
    text.push('"');
    for c in key.chars() {
        match c {
            '"' | '\\' => text.extend(['\\', c]),
            '\0'..='\x1f' | '\x7f' => text.push_str(&format!("\\u{:04X}", u32::from(c))),
            _ => text.push(c),
        }
    }
    text.push('"');
}

/// The text of a key path.
pub(crate) fn text<'a>(steps: impl IntoIterator<Item = &'a Step>) -> String {
    let mut text = String::new();
    for step in steps {
        match step {
            Step::Index(place) => text.push_str(&format!("[{place}]")),
            Step::Key(key) => {
                if !text.is_empty() {
                    text.push('.');
                }
                push_key(key, &mut text);
            }
        }
    }
    text
}
