//! The words of a command line: options by their long names, each at most once, and the others.

use crate::Failure;
use std::ffi::{OsStr, OsString};
use std::os::unix::ffi::OsStrExt;
use std::str::FromStr;

/// An option's name, and whether a value follows it.
pub type Known = (&'static str, bool);

pub struct Arguments {
    options: Vec<(&'static str, OsString)>,
    words: Vec<OsString>,
    after: Option<Vec<OsString>>,
}

impl Arguments {
    /// Reads the words, of which those after `--` are words whatever they look like.
    pub fn read(words: Vec<OsString>, known: &[Known]) -> Result<Arguments, Failure> {
        let mut arguments = Arguments::read_before(words, known)?;
        arguments
            .words
            .extend(arguments.after.take().unwrap_or_default());
        Ok(arguments)
    }

    /// Reads the words up to `--`; those after it stand apart.
    pub fn read_before(words: Vec<OsString>, known: &[Known]) -> Result<Arguments, Failure> {
        let mut arguments = Arguments {
            options: Vec::new(),
            words: Vec::new(),
            after: None,
        };
        let mut words = words.into_iter();
        while let Some(word) = words.next() {
            if word == "--" {
                arguments.after = Some(words.collect());
                break;
            }
            if !word.as_bytes().starts_with(b"-") || word == "-" {
                arguments.words.push(word);
                continue;
            }
            let mut parts = word.as_bytes().splitn(2, |&byte| byte == b'=');
            let (name, joined) = (parts.next().unwrap_or_default(), parts.next());
            let Some(&(name, takes)) = known.iter().find(|(known, _)| known.as_bytes() == name)
            else {
                return Err(format!("there is no option {word:?}").into());
            };
            let value = match (takes, joined) {
                (true, Some(value)) => OsStr::from_bytes(value).to_owned(),
                (true, None) => words.next().ok_or(format!("{name} wants a value"))?,
                (false, None) => OsString::new(),
                (false, Some(_)) => return Err(format!("{name} takes no value").into()),
            };
            if arguments.has(name) {
                return Err(format!("{name} is given twice").into());
            }
            arguments.options.push((name, value));
        }
        Ok(arguments)
    }

    pub fn has(&self, name: &str) -> bool {
        self.value(name).is_some()
    }

    pub fn value(&self, name: &str) -> Option<&OsStr> {
        let found = self.options.iter().find(|(option, _)| *option == name);
        found.map(|(_, value)| value.as_os_str())
    }

    /// The value of an option that has to be there.
    pub fn wanted(&self, name: &str) -> Result<&OsStr, Failure> {
        self.value(name).ok_or(format!("{name} is missing").into())
    }

    /// The value of an option that has to be there, a number in decimal digits.
    pub fn number<T: FromStr>(&self, name: &str) -> Result<T, Failure> {
        let value = self.wanted(name)?;
        let digits = value
            .to_str()
            .filter(|text| text.bytes().all(|byte| byte.is_ascii_digit()));
        digits
            .and_then(|digits| digits.parse().ok())
            .ok_or(format!("{name}: {value:?} is no number that fits").into())
    }

    /// What is neither an option nor its value.
    pub fn words(&self) -> &[OsString] {
        &self.words
    }

    pub fn no_words(&self) -> Result<(), Failure> {
        match self.words.first() {
            None => Ok(()),
            Some(word) => Err(format!("{word:?} is too much").into()),
        }
    }

    /// What stands after `--`.
    pub fn after(&self) -> Option<&[OsString]> {
        self.after.as_deref()
    }
}

#[cfg(test)]
mod tests {
    use super::*;

    const KNOWN: &[Known] = &[("--n", true), ("--explain", false)];

    fn read(words: &[&str]) -> Result<Arguments, Failure> {
        Arguments::read(words.iter().map(OsString::from).collect(), KNOWN)
    }

    fn refusal(words: &[&str]) -> String {
        read(words).err().expect("a failure").0
    }

    #[test]
    fn options_and_words() {
        let found = read(&["--n", "4", "a", "-", "--explain", "--", "--n", "b"])
            .ok()
            .unwrap();
        assert_eq!(found.words(), ["a", "-", "--n", "b"]);
        assert!(found.has("--explain"));
        assert_eq!(found.number::<u8>("--n").ok(), Some(4));
        assert_eq!(
            read(&["--n=7"]).ok().unwrap().number::<u8>("--n").ok(),
            Some(7)
        );
    }

    #[test]
    fn what_is_not_understood_is_refused() {
        assert_eq!(refusal(&["--m", "4"]), "there is no option \"--m\"");
        assert_eq!(refusal(&["-n", "4"]), "there is no option \"-n\"");
        assert_eq!(refusal(&["--n", "4", "--n=4"]), "--n is given twice");
        assert_eq!(refusal(&["--n"]), "--n wants a value");
        assert_eq!(refusal(&["--explain=1"]), "--explain takes no value");
        for wrong in ["", "+4", "-4", "256", "4 ", "0x4", "four"] {
            let found = read(&["--n", wrong]).ok().unwrap();
            // No digits at all are no number either.
            assert!(found.number::<u8>("--n").is_err(), "{wrong}");
        }
    }
}
