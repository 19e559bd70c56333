//! What is printed: headings, lines, tables and plots, as text or as Markdown.

use std::iter;

use common::say;

#[derive(Clone, Copy)]
pub enum Page {
    Text,
    Markdown,
}

impl Page {
    pub fn chapter(self, title: &str) {
        match self {
            Self::Text => say!("{title}\n{}\n", "=".repeat(title.len())),
            Self::Markdown => say!("## {title}\n"),
        }
    }

    pub fn section(self, title: &str) {
        match self {
            Self::Text => say!("{title}\n"),
            Self::Markdown => say!("### {title}\n"),
        }
    }

    pub fn paragraph(self, text: &str) {
        say!("{text}\n");
    }

    pub fn list(self, lines: &[String]) {
        for line in lines {
            say!("- {line}");
        }
        say!("");
    }

    /// Lines whose characters stand in columns.
    pub fn plot(self, lines: &str) {
        match self {
            Self::Text => say!("{lines}"),
            Self::Markdown => say!("```\n{lines}```\n"),
        }
    }

    /// The first column is flush left, the others are flush right.
    pub fn table(self, heads: &[&str], rows: &[Vec<String>]) {
        let heads: Vec<String> = heads.iter().map(|head| head.to_string()).collect();
        let width = |column: usize| {
            let cells = iter::once(&heads).chain(rows).map(|row| &row[column]);
            cells.map(|cell| cell.chars().count()).max().unwrap_or(0)
        };
        let widths: Vec<usize> = (0..heads.len()).map(width).collect();
        self.row(&heads, &widths);
        self.rule(&widths);
        for row in rows {
            self.row(row, &widths);
        }
        say!("");
    }

    fn row(self, cells: &[String], widths: &[usize]) {
        let pad = |(at, (cell, &width)): (usize, (&String, &usize))| match at {
            0 => format!("{cell:<width$}"),
            _ => format!("{cell:>width$}"),
        };
        let padded: Vec<String> = cells.iter().zip(widths).enumerate().map(pad).collect();
        match self {
            Self::Text => say!("{}", padded.join("  ").trim_end()),
            Self::Markdown => say!("| {} |", padded.join(" | ")),
        }
    }

    fn rule(self, widths: &[usize]) {
        match self {
            Self::Text => {
                let lines: Vec<String> = widths.iter().map(|&width| "-".repeat(width)).collect();
                say!("{}", lines.join("  "));
            }
            Self::Markdown => say!("|---{}|", "|--:".repeat(widths.len() - 1)),
        }
    }
}

/// With commas between the thousands.
pub fn grouped(number: usize) -> String {
    let digits = number.to_string();
    let mut text = String::new();
    for (at, digit) in digits.chars().enumerate() {
        if at > 0 && (digits.len() - at).is_multiple_of(3) {
            text.push(',');
        }
        text.push(digit);
    }
    text
}

/// Under a hundred with one decimal.
pub fn nanoseconds(time: f64) -> String {
    if time < 99.95 {
        format!("{time:.1}")
    } else {
        grouped(time.round() as usize)
    }
}

pub fn ratio(ratio: f64) -> String {
    format!("{ratio:.2}")
}
