//! Shapes as text in the document's way: `{0s, 1} 1>0:h 0>0:h`, keys with `s` for a summary, `h` for 1/2; unnamed links are
//! 0. Also with variables by name.

use crate::reference::{Key, Shape, Truth};

/// The shape that a text stands for.
///
/// # Panics
/// If the text isn't written in this way: it is for examples and tables that stand in the source.
pub fn shape(text: &str) -> Shape {
    let inner = text.trim().strip_prefix('{').expect("a shape opens with {");
    let (keys, links) = inner.split_once('}').expect("a shape closes with }");
    let mut shape = Shape::empty();
    for word in keys.split([',', ' ']).filter(|word| !word.is_empty()) {
        let number = word.trim_end_matches('s');
        shape.add(key(number), number.len() < word.len());
    }
    for word in links.split_whitespace() {
        let (pair, value) = word.split_once(':').expect("a link has a value");
        let (from, to) = pair.split_once('>').expect("a link has two ends");
        let value = match value {
            "0" => Truth::Zero,
            "1" => Truth::One,
            "h" => Truth::Half,
            _ => panic!("no link value: {value}"),
        };
        assert!(shape.has_key(key(from)) && shape.has_key(key(to)), "{word}");
        shape.set_link(key(from), key(to), value);
    }
    shape
}

fn key(number: &str) -> Key {
    Key(number.parse().expect("a key is a number"))
}

/// The text of a shape.
pub fn text(shape: &Shape) -> String {
    let keys: Vec<String> = shape
        .keys()
        .iter()
        .map(|&key| format!("{}{}", key.0, if shape.is_summary(key) { "s" } else { "" }))
        .collect();
    let mut text = format!("{{{}}}", keys.join(", "));
    for (from, to, value) in links(shape) {
        let value = if value == Truth::One { "1" } else { "h" };
        text += &format!(" {}>{}:{value}", from.0, to.0);
    }
    text
}

/// The nonzero links of a shape.
fn links(shape: &Shape) -> Vec<(Key, Key, Truth)> {
    let keys = shape.keys();
    let pairs = keys
        .iter()
        .flat_map(|&from| keys.iter().map(move |&to| (from, to)));
    pairs
        .map(|(from, to)| (from, to, shape.link(from, to)))
        .filter(|&(_, _, value)| value != Truth::Zero)
        .collect()
}

/// A shape in words, with the variables' names.
pub fn words(shape: &Shape, names: &[&str]) -> String {
    if shape.keys().is_empty() {
        return "no cell, every variable null".to_string();
    }
    let name = |key: Key| {
        let held: Vec<&str> = key
            .variables()
            .into_iter()
            .map(|variable| names[variable as usize])
            .collect();
        let mut name = match (held.is_empty(), shape.is_summary(key)) {
            (true, true) => "others".to_string(),
            (true, false) => "one other".to_string(),
            (false, _) => held.join("="),
        };
        if key.shared() {
            name += " (shared)";
        }
        name
    };
    let individuals: Vec<String> = shape.keys().into_iter().map(name).collect();
    let links: Vec<String> = links(shape)
        .into_iter()
        .map(|(from, to, value)| {
            let arrow = if value == Truth::One { "->" } else { "-?>" };
            format!("{} {arrow} {}", name(from), name(to))
        })
        .collect();
    if links.is_empty() {
        format!("{}; no links", individuals.join(", "))
    } else {
        format!("{}; {}", individuals.join(", "), links.join(", "))
    }
}

#[cfg(test)]
mod tests {
    use super::*;

    #[test]
    fn text_comes_back() {
        for line in [
            "{}",
            "{1}",
            "{0s, 1} 0>0:h 1>0:h",
            "{2, 257} 2>257:1 257>257:1",
        ] {
            assert_eq!(text(&shape(line)), line);
        }
    }
}
