//! What the example programs share: their words, and how they end.

use std::env;
use std::process::ExitCode;

use hozgrim::Refusal;

/// Why there is nothing to print.
#[derive(Debug, PartialEq)]
pub enum Failure {
    /// This word is not understood.
    Word(String),
    /// The frame is refused.
    Refused(Refusal),
}

/// Prints what a program makes of the words behind its name.
pub fn end(usage: &str, run: impl FnOnce(&[String]) -> Result<String, Failure>) -> ExitCode {
    let words = env::args_os().skip(1);
    let words: Vec<String> = words.map(|word| word.to_string_lossy().into()).collect();
    match run(&words) {
        Ok(text) => {
            print!("{text}");
            ExitCode::SUCCESS
        }
        Err(Failure::Refused(refusal)) => {
            println!("refused: {} ({refusal})", refusal.number());
            ExitCode::FAILURE
        }
        Err(Failure::Word(word)) => {
            eprint!("not understood: '{word}'\n{usage}");
            ExitCode::from(2)
        }
    }
}

/// What a program prints that takes no words: a text, or its usage.
pub fn wordless(
    usage: &str,
    words: &[String],
    text: impl FnOnce() -> String,
) -> Result<String, Failure> {
    match words.first() {
        _ if words.iter().any(|word| word == "--help") => Ok(usage.into()),
        Some(word) => Err(Failure::Word(word.clone())),
        None => Ok(text()),
    }
}

/// The bytes that each word of hexadecimal digits spells; or the first word that spells none.
pub fn bytes(words: &[String]) -> Result<Vec<Vec<u8>>, Failure> {
    let spelled = words.iter().map(|word| {
        let bytes = bytes_of(word);
        bytes.ok_or_else(|| Failure::Word(word.clone()))
    });
    spelled.collect()
}

fn bytes_of(word: &str) -> Option<Vec<u8>> {
    let digit = |char: char| char.to_digit(16).map(|digit| digit as u8);
    let digits: Vec<u8> = word.chars().map(digit).collect::<Option<_>>()?;
    let (pairs, []) = digits.as_chunks() else {
        return None;
    };
    Some(pairs.iter().map(|[high, low]| high << 4 | low).collect())
}

/// A word of two digits for each byte.
pub fn hexadecimal(bytes: &[u8]) -> String {
    let words: Vec<String> = bytes.iter().map(|byte| format!("{byte:02X}")).collect();
    words.join(" ")
}
