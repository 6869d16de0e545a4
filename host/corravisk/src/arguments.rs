//! The words of the call: options with their values, and the rest. Each command takes what it knows, and what
//! is left over is an error, so that a misspelt setting is never passed over in silence.

use std::ffi::OsString;
use std::path::PathBuf;

use crate::stop::Stop;

pub struct Arguments {
    /// Options as they were given, each with its value if it was joined by `=`.
    options: Vec<(String, Option<OsString>)>,
    /// Words that are no options; one that follows an option may be taken as its value.
    words: Vec<Word>,
}

/// A word, and how many options stood before it.
struct Word {
    text: OsString,
    after: usize,
    /// Whether it stands right behind an option that has no value yet.
    may_be_value: bool,
}

impl Arguments {
    pub fn new(given: impl Iterator<Item = OsString>) -> Arguments {
        let mut arguments = Arguments { options: Vec::new(), words: Vec::new() };
        let mut only_words = false;
        let mut behind_option = false;
        for text in given {
            let option = text.to_str().filter(|text| !only_words && is_option(text));
            if option == Some("--") {
                (only_words, behind_option) = (true, false);
                continue;
            }
            if let Some(option) = option {
                let (name, value) = match option.split_once('=') {
                    Some((name, value)) => (name.to_string(), Some(value.into())),
                    None => (option.to_string(), None),
                };
                behind_option = value.is_none();
                arguments.options.push((name, value));
            } else {
                let after = arguments.options.len();
                arguments.words.push(Word { text, after, may_be_value: behind_option });
                behind_option = false;
            }
        }
        arguments
    }

    pub fn asks_for_help(&self) -> bool {
        self.options.iter().any(|(name, _)| name == "--help" || name == "-h")
    }

    /// The one word that is there, if nothing else is.
    pub fn only_word(&self) -> Option<String> {
        match &self.words[..] {
            [word] if self.options.is_empty() => word.text.to_str().map(str::to_string),
            _ => None,
        }
    }

    /// Takes an option that stands for itself.
    pub fn flag(&mut self, name: &str) -> Result<bool, Stop> {
        match self.find(name)? {
            None => Ok(false),
            Some(place) if self.options[place].1.is_some() => {
                Err(Stop::Usage(format!("{name} takes no value")))
            }
            Some(place) => {
                self.take(place);
                Ok(true)
            }
        }
    }

    /// Takes an option with its value.
    pub fn value(&mut self, name: &str) -> Result<Option<OsString>, Stop> {
        let Some(place) = self.find(name)? else { return Ok(None) };
        let value = match self.options[place].1.take() {
            Some(value) => Some(value),
            None => self.word_behind(place),
        };
        self.take(place);
        value.map(Some).ok_or_else(|| Stop::Usage(format!("{name} needs a value")))
    }

    /// Takes an option whose value is text.
    pub fn text(&mut self, name: &str) -> Result<Option<String>, Stop> {
        let value = self.value(name)?.map(OsString::into_string).transpose();
        value.map_err(|value| Stop::Usage(format!("{name}: not text: {}", value.display())))
    }

    pub fn path(&mut self, name: &str) -> Result<Option<PathBuf>, Stop> {
        Ok(self.value(name)?.map(PathBuf::from))
    }

    /// The words, once all options are taken.
    pub fn words(self) -> Result<Vec<OsString>, Stop> {
        match self.options.first() {
            Some((name, _)) => Err(Stop::Usage(format!("no such option here: {name}"))),
            None => Ok(self.words.into_iter().map(|word| word.text).collect()),
        }
    }

    /// Where an option stands. One that is given twice is an error: which one was meant?
    fn find(&self, name: &str) -> Result<Option<usize>, Stop> {
        let mut places = (0..self.options.len()).filter(|&place| self.options[place].0 == name);
        let first = places.next();
        match places.next() {
            Some(_) => Err(Stop::Usage(format!("{name} is given twice"))),
            None => Ok(first),
        }
    }

    /// Takes the word that stands right behind the option at this place.
    fn word_behind(&mut self, place: usize) -> Option<OsString> {
        let is_it = |word: &Word| word.after == place + 1 && word.may_be_value;
        let word = self.words.iter().position(is_it)?;
        Some(self.words.remove(word).text)
    }

    fn take(&mut self, place: usize) {
        self.options.remove(place);
        self.words.iter_mut().filter(|word| word.after > place).for_each(|word| word.after -= 1);
    }
}

/// A number below zero is no option.
fn is_option(text: &str) -> bool {
    text.starts_with('-') && text.len() > 1 && text.parse::<f64>().is_err()
}

#[cfg(test)]
mod tests {
    use super::*;

    fn arguments(words: &str) -> Arguments {
        Arguments::new(words.split(' ').map(OsString::from))
    }

    #[test]
    fn options_stand_anywhere() {
        let mut given = arguments("in --root 1.9 out --json --shift-days -3");
        assert_eq!(given.text("--shift-days").unwrap().as_deref(), Some("-3"));
        assert_eq!(given.text("--root").unwrap().as_deref(), Some("1.9"));
        assert!(given.flag("--json").unwrap());
        assert!(!given.flag("--raw").unwrap());
        assert_eq!(given.words().unwrap(), ["in", "out"]);
    }

    #[test]
    fn a_flag_leaves_the_word_behind_it() {
        let mut given = arguments("--json in --root=1.9 out");
        assert!(given.flag("--json").unwrap());
        assert_eq!(given.text("--root").unwrap().as_deref(), Some("1.9"));
        assert_eq!(given.words().unwrap(), ["in", "out"]);
    }

    #[test]
    fn wrong_calls_are_told() {
        assert!(arguments("--root 1 --root 2").text("--root").is_err());
        assert!(arguments("a --root").text("--root").is_err());
        assert!(arguments("--json=1").flag("--json").is_err());
        assert!(arguments("--jsn a").words().is_err());
        assert_eq!(arguments("-- --jsn a").words().unwrap(), ["--jsn", "a"]);
    }
}
