//! A command's arguments: words, and options that take a number.

use super::process::Program;

pub struct Arguments {
    words: Vec<String>,
    numbers: Vec<(String, u64)>,
}

impl Arguments {
    /// Takes the arguments apart; only the `known` options are allowed.
    pub fn parse(given: impl Iterator<Item = String>, known: &[&str]) -> Result<Self, String> {
        let mut arguments = Arguments {
            words: Vec::new(),
            numbers: Vec::new(),
        };
        let mut given = given;
        while let Some(word) = given.next() {
            if !word.starts_with("--") {
                arguments.words.push(word);
                continue;
            }
            if !known.contains(&word.as_str()) {
                return Err(format!("no option {word}"));
            }
            let number = given.next().and_then(|number| number.parse().ok());
            let number = number.ok_or_else(|| format!("{word} needs a number"))?;
            arguments.numbers.push((word, number));
        }
        Ok(arguments)
    }

    /// The program to be tried, and the words it is to be called with.
    pub fn program(&self) -> Result<Program, String> {
        match self.words.as_slice() {
            [path, words @ ..] => Ok(Program::new(path, words)),
            [] => Err(String::from("a PROGRAM is needed")),
        }
    }

    /// A program for each word, to be called without words.
    #[cfg(feature = "archive")]
    pub fn programs(&self) -> Vec<Program> {
        let program = |path: &String| Program::new(path, &[]);
        self.words.iter().map(program).collect()
    }

    /// The option's number; the last one given counts.
    pub fn number(&self, option: &str) -> Option<u64> {
        let mut given = self.numbers.iter().rev();
        given
            .find(|(name, _)| name == option)
            .map(|(_, number)| *number)
    }
}

#[cfg(test)]
mod tests {
    use super::*;

    fn parsed(words: &[&str]) -> Result<Arguments, String> {
        Arguments::parse(words.iter().map(|word| word.to_string()), &["--seed"])
    }

    #[test]
    fn words_and_numbers_are_told_apart() {
        let arguments = parsed(&["program", "--seed", "7", "word"]).expect("in form");
        assert_eq!(arguments.words, ["program", "word"]);
        assert_eq!(arguments.number("--seed"), Some(7));
        assert_eq!(arguments.number("--frames"), None);
    }

    #[test]
    fn what_is_not_in_form_is_refused() {
        assert!(parsed(&["--speed", "7"]).is_err());
        assert!(parsed(&["--seed"]).is_err());
        assert!(parsed(&["--seed", "x"]).is_err());
        assert!(parsed(&[]).expect("in form").program().is_err());
    }
}
