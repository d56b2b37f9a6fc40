//! The table: its rows by their words, and how it is written.

/// Where a row's words stand.
pub const PROPERTY: usize = 1;
pub const BOUND: usize = 2;
pub const BUDGET: usize = 3;
pub const VERDICT: usize = 4;
pub const AT: usize = 5;
pub const TRIES: usize = 6;
pub const VARIABLES: usize = 7;
pub const WORDS: usize = 9;
pub const CHOICES: usize = 11;

/// In the place of a number that was not asked for.
pub const UNASKED: &str = "?";

/// A line of the table: a row as its words, or a comment.
pub enum Line {
    Comment(String),
    Row(Vec<String>),
}

impl Line {
    pub fn row(&self) -> Option<&[String]> {
        match self {
            Line::Row(row) => Some(row),
            Line::Comment(_) => None,
        }
    }
}

pub fn number(text: &str) -> Result<u64, String> {
    text.parse().map_err(|_| format!("no number: {text}"))
}

/// Choices as a row and a request have them.
pub fn choices_text(choices: &[u8]) -> String {
    let digits: Vec<String> = choices.iter().map(u8::to_string).collect();
    if digits.is_empty() {
        return "-".to_string();
    }
    digits.join(",")
}

pub fn budget_of(word: &str) -> Result<u64, String> {
    if word == "-" {
        return Ok(u64::MAX);
    }
    number(word)
}

/// Columns are as wide as their widest word.
pub fn table_text(table: &[Line]) -> String {
    let rows = || table.iter().filter_map(Line::row);
    let width = |i: usize| rows().map(|row| row[i].len()).max().unwrap_or(0);
    let widths: Vec<usize> = (0..rows().map(<[_]>::len).max().unwrap_or(0)).map(width).collect();
    let mut text = String::new();
    for line in table {
        let line = match line {
            Line::Comment(line) => line.clone(),
            Line::Row(row) => {
                let padded = row.iter().zip(&widths).map(|(word, &w)| format!("{word:<w$}"));
                padded.collect::<Vec<String>>().join(" ")
            }
        };
        text += line.trim_end();
        text.push('\n');
    }
    text
}

pub fn first_difference(stored: &str, text: &str) -> Option<String> {
    if stored == text {
        return None;
    }
    let mut pairs = stored.lines().zip(text.lines());
    match pairs.find(|(a, b)| a != b) {
        Some((a, b)) => Some(format!("difference\nstored: {a}\nnow:    {b}")),
        None => Some("difference in line ends".to_string()),
    }
}
