//! The words of a command: its options and its operands, which are file names of any bytes.

use std::ffi::{OsStr, OsString};

/// What follows a command's name.
pub struct Arguments {
    options: Vec<String>,
    /// The file names.
    pub operands: Vec<OsString>,
}

/// A word of the command line within a message of one line.
pub fn quoted(word: &OsStr) -> String {
    format!("'{}'", word.to_string_lossy().escape_debug())
}

impl Arguments {
    /// Options may stand anywhere before `--`; behind it all words are file names.
    pub fn new(words: &[OsString], allowed: &[&str]) -> Result<Arguments, String> {
        let end = words.iter().position(|word| word == "--").unwrap_or(words.len());
        let (before, behind) = words.split_at(end);
        let is_option = |word: &&OsString| word.len() > 1 && word.as_encoded_bytes()[0] == b'-';
        let (options, mut operands): (Vec<&OsString>, Vec<&OsString>) =
            before.iter().partition(is_option);
        operands.extend(behind.iter().skip(1));
        let known = |word: &OsString| word.to_str().is_some_and(|word| allowed.contains(&word));
        if let Some(unknown) = options.iter().find(|word| !known(word)) {
            return Err(format!("there is no option {}", quoted(unknown)));
        }
        let options = options.iter().map(|word| word.to_string_lossy().into_owned()).collect();
        Ok(Arguments { options, operands: operands.into_iter().cloned().collect() })
    }

    /// Was this option given?
    pub fn has(&self, option: &str) -> bool {
        self.options.iter().any(|given| given == option)
    }
}
