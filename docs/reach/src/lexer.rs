//! The words of a line, without comments and strings. Code and logic write names, brackets and projections
//! (`.name`) alike.

/// Each ends a name, and is a word by itself.
const MARKS: &str = "(){}[];,:.";

pub fn is_mark(word: &str) -> bool {
    word.starts_with(|c| MARKS.contains(c))
}

fn name_length(text: &str) -> usize {
    text.find(|c: char| c.is_whitespace() || c == '"' || MARKS.contains(c)).unwrap_or(text.len())
}

fn word_length(text: &str) -> usize {
    match text.as_bytes()[0] {
        b'"' => text[1..].find('"').map_or(text.len(), |end| end + 2),
        b'.' => 1 + name_length(&text[1..]),
        _ if is_mark(text) => 1,
        _ => name_length(text),
    }
}

/// The words of a line up to its comment, which starts with the mark given.
pub fn words<'a>(line: &'a str, comment: &str) -> Vec<&'a str> {
    let mut words = Vec::new();
    let mut rest = line.trim_start();
    while !rest.is_empty() && !rest.starts_with(comment) {
        let (word, behind) = rest.split_at(word_length(rest));
        if !word.starts_with('"') {
            words.push(word);
        }
        rest = behind.trim_start();
    }
    words
}

/// The words outside of brackets, with their places.
pub fn outer<'t, 'a>(words: &'t [&'a str]) -> impl Iterator<Item = (usize, &'a str)> + 't {
    let mut depth = 0;
    words.iter().enumerate().filter_map(move |(at, word)| {
        match *word {
            "(" | "{" | "[" => depth += 1,
            ")" | "}" | "]" => depth -= 1,
            word if depth == 0 => return Some((at, word)),
            _ => {}
        }
        None
    })
}

/// Where the bracket at a place is closed.
pub fn closing(words: &[&str], open: usize) -> Option<usize> {
    let mut depth = 0;
    for (at, word) in words.iter().enumerate().skip(open) {
        match *word {
            "(" | "{" | "[" => depth += 1,
            ")" | "}" | "]" => depth -= 1,
            _ => {}
        }
        if depth == 0 {
            return Some(at);
        }
    }
    None
}

#[cfg(test)]
mod tests {
    use super::*;

    #[test]
    fn names_marks_and_projections() {
        let line = "put_at-fits r' = (λ p. f p.at.1) ◌∷◌ -- not this";
        assert_eq!(
            words(line, "--"),
            ["put_at-fits", "r'", "=", "(", "λ", "p", ".", "f", "p", ".at", ".1", ")", "◌∷◌"]
        );
    }

    #[test]
    fn strings_are_left_out() {
        assert_eq!(
            words("extern \"C { fn\" fn f(a: u8) // }", "//"),
            ["extern", "fn", "f", "(", "a", ":", "u8", ")"]
        );
    }

    #[test]
    fn brackets() {
        let outside: Vec<_> = outer(&["a", "(", "b", "[", "]", ")", "c"]).collect();
        assert_eq!(outside, [(0, "a"), (6, "c")]);
        assert_eq!(closing(&["(", "a", "[", "]", ")", ")"], 0), Some(4));
        assert_eq!(closing(&["(", "a"], 0), None);
    }
}
