//! Words and signs of a text, each with its line and column.

use super::Spot;

const KEYWORDS: [&str; 13] =
    ["choose", "drop", "else", "free", "goto", "new", "next", "null", "shape", "skip", "stop", "test", "undefined"];

#[derive(Clone, PartialEq, Eq, Debug)]
pub enum Kind {
    Keyword(&'static str),
    Pointer(u8),
    Name(String),
    Sign(&'static str),
    EndOfLine,
    EndOfText,
    /// A word or a character that the text form does not have.
    Strange(String),
}

#[derive(Clone, PartialEq, Eq, Debug)]
pub struct Token {
    pub kind: Kind,
    pub spot: Spot,
}

impl Token {
    pub fn found(&self) -> String {
        match &self.kind {
            Kind::Keyword(word) | Kind::Sign(word) => format!("`{word}`"),
            Kind::Pointer(p) => format!("`p{p}`"),
            Kind::Name(word) | Kind::Strange(word) => format!("`{word}`"),
            Kind::EndOfLine => "the end of the line".into(),
            Kind::EndOfText => "the end of the text".into(),
        }
    }
}

/// The text as tokens; the last is EndOfText. Lines without a token leave nothing.
pub fn tokens(text: &str) -> Vec<Token> {
    let mut out: Vec<Token> = Vec::new();
    let mut last = Spot { line: 1, column: 1 };
    for (index, line) in text.lines().enumerate() {
        let before = out.len();
        let end = line_tokens(line, index + 1, &mut out);
        last = Spot { line: index + 1, column: end };
        if out.len() > before {
            out.push(Token { kind: Kind::EndOfLine, spot: last });
        }
    }
    out.push(Token { kind: Kind::EndOfText, spot: last });
    out
}

/// Adds a line's tokens and gives the column after the last of them.
fn line_tokens(line: &str, number: usize, out: &mut Vec<Token>) -> usize {
    let chars: Vec<char> = line.chars().collect();
    let (mut at, mut end) = (0, 0);
    while at < chars.len() && chars[at] != '#' {
        // an editor's mark at the start of a file is no part of the text
        if chars[at].is_whitespace() || chars[at] == '\u{feff}' {
            at += 1;
            continue;
        }
        let (kind, length) = token_at(&chars[at..]);
        out.push(Token { kind, spot: Spot { line: number, column: at + 1 } });
        at += length;
        end = at;
    }
    end + 1
}

/// The token at the start of a part of a line, and its length.
fn token_at(chars: &[char]) -> (Kind, usize) {
    for sign in [":=", "->", ":", ".", "=", ","] {
        if sign.chars().eq(chars.iter().copied().take(sign.len())) {
            return (Kind::Sign(sign), sign.len());
        }
    }
    let word: String = chars.iter().take_while(|c| c.is_alphanumeric() || **c == '_').collect();
    if word.is_empty() {
        return (Kind::Strange(chars[0].to_string()), 1);
    }
    let length = word.chars().count();
    (word_kind(word), length)
}

fn word_kind(word: String) -> Kind {
    if let Some(keyword) = KEYWORDS.into_iter().find(|k| *k == word) {
        return Kind::Keyword(keyword);
    }
    // every p with digits is kept for pointers, so that p6 is told as one that there is not
    if let Some(digits) = word.strip_prefix('p').filter(|d| !d.is_empty() && d.bytes().all(|b| b.is_ascii_digit())) {
        return match digits.as_bytes() {
            [d @ b'0'..=b'5'] => Kind::Pointer(d - b'0'),
            _ => Kind::Strange(word),
        };
    }
    if word.is_ascii() && !word.starts_with(|c: char| c.is_ascii_digit()) {
        return Kind::Name(word);
    }
    Kind::Strange(word)
}
