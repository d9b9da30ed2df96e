//! The tokens of a Rattle source, without comments.

#[derive(Clone, Copy, Debug, PartialEq)]
pub struct Token<'a> {
    pub text: &'a str,
    pub line: usize,
}

impl Token<'_> {
    pub fn is_name(&self) -> bool {
        self.text.starts_with(is_name)
    }
}

/// The symbols of more than one character, a longer one before its beginnings.
const SYMBOLS: [&str; 15] =
    ["<<=", ">>=", "..=", "->", "=>", "==", "!=", "<=", ">=", "&&", "||", "<<", ">>", "::", ".."];

fn is_name(c: char) -> bool {
    c.is_alphanumeric() || c == '_'
}

fn is_comment(text: &str) -> bool {
    text.starts_with("//") || text.starts_with("/*")
}

fn comment_length(text: &str) -> usize {
    let end = if text.starts_with("//") { text.find('\n') } else { text.find("*/").map(|end| end + 2) };
    end.unwrap_or(text.len())
}

fn string_length(text: &str) -> usize {
    let mut escaped = true;
    let closes = |c: char| {
        let is_end = c == '"' && !escaped;
        escaped = c == '\\' && !escaped;
        is_end
    };
    text.find(closes).map_or(text.len(), |end| end + 1)
}

/// A character in its quotes, or the quote alone, as before a lifetime's name.
fn quoted_length(text: &str) -> usize {
    let behind = text[1..].chars().next().map_or(1, |c| 1 + c.len_utf8());
    if text[1..].starts_with('\\') {
        text[behind + 1..].find('\'').map_or(1, |end| behind + end + 2)
    } else if text[behind..].starts_with('\'') {
        behind + 1
    } else {
        1
    }
}

/// The length of what stands first: a comment, a literal, a symbol, a name or number, or one character.
fn length(text: &str, first: char) -> usize {
    match first {
        _ if is_comment(text) => comment_length(text),
        '"' => string_length(text),
        '\'' => quoted_length(text),
        _ if is_name(first) => text.find(|c| !is_name(c)).unwrap_or(text.len()),
        _ => SYMBOLS.iter().find(|s| text.starts_with(**s)).map_or(first.len_utf8(), |s| s.len()),
    }
}

pub fn tokens(text: &str) -> Vec<Token<'_>> {
    let mut tokens = Vec::new();
    let (mut rest, mut line) = (text, 1);
    while let Some(first) = rest.chars().next() {
        let (text, behind) = rest.split_at(length(rest, first));
        if !first.is_whitespace() && !is_comment(text) {
            tokens.push(Token { text, line });
        }
        line += text.matches('\n').count();
        rest = behind;
    }
    tokens
}

/// Where the bracket at a place is closed.
pub fn closing(tokens: &[Token], open: usize) -> Option<usize> {
    let mut depth = 0;
    for (at, token) in tokens.iter().enumerate().skip(open) {
        match token.text {
            "(" | "{" | "[" => depth += 1,
            ")" | "}" | "]" => depth -= 1,
            _ => {}
        }
        if depth == 0 {
            return Some(at);
        }
    }
    None
}

#[cfg(test)]
mod tests {
    use super::*;

    fn texts(text: &str) -> Vec<&str> {
        tokens(text).iter().map(|token| token.text).collect()
    }

    #[test]
    fn arrows_and_shifts_are_no_comparisons() {
        assert_eq!(texts("a -> b => c << 2 >> d"), ["a", "->", "b", "=>", "c", "<<", "2", ">>", "d"]);
        assert_eq!(texts("a<b>=c==d..=e.0"), ["a", "<", "b", ">=", "c", "==", "d", "..=", "e", ".", "0"]);
    }

    #[test]
    fn comments_are_left_out() {
        assert_eq!(
            tokens("// if\na /* < \n */ b"),
            [Token { text: "a", line: 2 }, Token { text: "b", line: 3 }]
        );
    }

    #[test]
    fn literals_are_whole() {
        assert_eq!(
            texts(r#"b"if \" <" '<' '\'' 'a x"#),
            ["b", r#""if \" <""#, "'<'", r"'\''", "'", "a", "x"]
        );
    }

    #[test]
    fn brackets() {
        assert_eq!(closing(&tokens("( a [ ]"), 0), None);
        assert_eq!(closing(&tokens("x ( a [ ] ) )"), 1), Some(5));
    }
}
