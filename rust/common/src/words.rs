//! The words of a call: names of a list, and options with a number.

use std::process::ExitCode;

/// The items that are named, or all of them if none is. The numbers of options are put where they
/// belong. What cannot be understood comes back as a line for standard error.
pub fn chosen<'a, T: Copy>(
    words: &[&str],
    listed: &[(&'a str, T)],
    options: &mut [(&str, &mut u64)],
) -> Result<Vec<(&'a str, T)>, String> {
    let mut items = vec![];
    let mut words = words.iter();
    while let Some(&word) = words.next() {
        if let Some((_, number)) = options.iter_mut().find(|(option, _)| *option == word) {
            **number = number_behind(word, words.next())?;
        } else if let Some(item) = listed.iter().find(|(name, _)| *name == word) {
            items.push(*item);
        } else {
            let names = listed.iter().map(|(name, _)| *name);
            let possible = names.chain(options.iter().map(|(option, _)| *option));
            return Err(impossible(word, possible));
        }
    }
    if items.is_empty() {
        items.extend(listed);
    }
    Ok(items)
}

fn number_behind(option: &str, word: Option<&&str>) -> Result<u64, String> {
    let word = word.ok_or_else(|| format!("{option} needs a number behind it"))?;
    let number = word.parse();
    number.map_err(|error| format!("{option} needs a number, and \"{word}\" is none: {error}"))
}

/// Says that a word is none of those that are possible.
pub fn impossible(word: &str, possible: impl IntoIterator<Item = impl Into<String>>) -> String {
    let possible: Vec<String> = possible.into_iter().map(Into::into).collect();
    format!(
        "\"{word}\" is not possible here; possible are:\n  {}",
        possible.join(" ")
    )
}

/// How a program ends: well, if everything passed. An error is about its words.
pub fn end(program: &str, passed: Result<bool, String>) -> ExitCode {
    match passed {
        Ok(true) => ExitCode::SUCCESS,
        Ok(false) => ExitCode::FAILURE,
        Err(line) => {
            eprintln!("{program}: {line}");
            ExitCode::from(2)
        }
    }
}

/// The words that the usage of a script lists under this title.
pub fn in_usage<'a>(script: &'a str, title: &str) -> Vec<&'a str> {
    let title = format!("# {title};");
    let lines = script.lines();
    let below = lines.skip_while(|line| !line.starts_with(&title)).skip(1);
    let listed = below.map_while(|line| line.strip_prefix("#   ")?.split(' ').next());
    listed.collect()
}

#[cfg(test)]
mod tests {
    use super::*;

    type Item = (&'static str, char);

    const FIRST: Item = ("first", 'a');
    const SECOND: Item = ("second", 'b');

    /// The items, the seed and the count.
    fn call(words: &[&str]) -> Result<(Vec<Item>, u64, u64), String> {
        let (mut seed, mut count) = (1, 10);
        let mut options = [("--seed", &mut seed), ("--count", &mut count)];
        let items = chosen(words, &[FIRST, SECOND], &mut options)?;
        Ok((items, seed, count))
    }

    #[test]
    fn everything_without_a_name() {
        assert_eq!(call(&[]), Ok((vec![FIRST, SECOND], 1, 10)));
        assert_eq!(call(&["--count", "0"]), Ok((vec![FIRST, SECOND], 1, 0)));
    }

    #[test]
    fn names_and_numbers_in_any_order() {
        let words = ["second", "--seed", "7", "first", "--count", "5", "second"];
        assert_eq!(call(&words), Ok((vec![SECOND, FIRST, SECOND], 7, 5)));
    }

    #[test]
    fn a_bad_word_is_named_with_those_that_are_possible() {
        let line = "\"third\" is not possible here; possible are:\n  first second --seed --count";
        assert_eq!(call(&["first", "third"]), Err(line.into()));
    }

    #[test]
    fn a_number_that_is_missing_or_none() {
        let line = "--seed needs a number behind it";
        assert_eq!(call(&["--seed"]), Err(line.into()));
        for word in ["", "x", "-1", "1.5", "18446744073709551616", "--count"] {
            let line = call(&["--seed", word]).expect_err("that is no number");
            let named = format!("--seed needs a number, and \"{word}\" is none: ");
            assert!(line.starts_with(&named), "{line}");
        }
    }

    #[test]
    fn the_words_of_a_usage() {
        let script =
            "#!\n# Others:\n#   other\n#\n# Words; more:\n#   one    is one\n#   two\n#\n#   no";
        assert_eq!(in_usage(script, "Words"), ["one", "two"]);
    }
}
