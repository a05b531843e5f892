//! Lines for a terminal: colours where there is one, and no line over 100 columns.

use std::io::IsTerminal;

pub const WIDTH: usize = 100;

/// Colours, or none.
#[derive(Clone, Copy)]
pub struct Style {
    on: bool,
}

impl Style {
    pub const PLAIN: Style = Style { on: false };

    /// For standard output: colours on a terminal only, and not where NO_COLOR asks for none.
    pub fn of_output() -> Style {
        let unwanted = std::env::var_os("NO_COLOR").is_some_and(|v| !v.is_empty());
        Style { on: std::io::stdout().is_terminal() && !unwanted }
    }

    fn paint(self, code: &str, text: &str) -> String {
        if self.on {
            format!("\x1b[{code}m{text}\x1b[0m")
        } else {
            text.into()
        }
    }

    pub fn strong(self, text: &str) -> String {
        self.paint("1", text)
    }

    pub fn bad(self, text: &str) -> String {
        self.paint("1;31", text)
    }

    pub fn good(self, text: &str) -> String {
        self.paint("32", text)
    }
}

/// The pieces after the lead, one space between; a piece that would pass the last column starts a new line at the indent.
pub fn fill(lead: &str, indent: usize, pieces: &[String]) -> String {
    let mut lines = vec![lead.to_string()];
    for piece in pieces {
        let line = lines.last_mut().unwrap();
        let length = line.chars().count();
        if length > indent && length + 1 + piece.chars().count() > WIDTH {
            lines.push(" ".repeat(indent) + piece);
        } else {
            let gap = if line.is_empty() || line.ends_with(' ') { "" } else { " " };
            line.push_str(gap);
            line.push_str(piece);
        }
    }
    lines.iter().map(|l| l.trim_end().to_string() + "\n").collect()
}

/// A text's words as lines.
pub fn paragraph(lead: &str, indent: usize, text: &str) -> String {
    let words: Vec<String> = text.split_whitespace().map(String::from).collect();
    fill(lead, indent, &words)
}

/// The pieces, each but the last with a comma.
pub fn with_commas(pieces: &[String]) -> Vec<String> {
    let last = pieces.len().saturating_sub(1);
    pieces.iter().enumerate().map(|(i, p)| if i < last { format!("{p},") } else { p.clone() }).collect()
}
