use crate::ending::Ending;

/// The options of a command, as they are given.
#[derive(Debug)]
pub struct Options<'a> {
    given: Vec<(&'a str, Option<&'a str>)>,
}

impl<'a> Options<'a> {
    /// Options without a value, and those with one, as `--k 8` or `--k=8`.
    pub fn parse(
        words: &[&'a str],
        without: &[&str],
        with: &[&str],
    ) -> Result<Options<'a>, Ending> {
        let mut given: Vec<(&str, Option<&str>)> = Vec::new();
        let mut words = words.iter();
        while let Some(word) = words.next() {
            let (name, mut value) = match word.split_once('=') {
                Some((name, value)) => (name, Some(value)),
                None => (*word, None),
            };
            if with.contains(&name) {
                value = value.or_else(|| words.next().copied());
                if value.is_none() {
                    return Err(misuse(format!("the option {name} needs a value.")));
                }
            } else if !without.contains(word) {
                return Err(unknown(word));
            }
            if given.iter().any(|(before, _)| *before == name) {
                return Err(misuse(format!("the option {name} is given twice.")));
            }
            given.push((name, value));
        }
        Ok(Options { given })
    }

    pub fn has(&self, name: &str) -> bool {
        self.given.iter().any(|(given, _)| *given == name)
    }

    /// The number of an option, decimal, if it is given.
    pub fn number(&self, name: &str) -> Result<Option<u64>, Ending> {
        let Some((_, Some(text))) = self.given.iter().find(|(given, _)| *given == name) else {
            return Ok(None);
        };
        let digits = !text.is_empty() && text.bytes().all(|octet| octet.is_ascii_digit());
        match text.parse() {
            Ok(number) if digits => Ok(Some(number)),
            _ => Err(misuse(format!("{name} takes a number, not '{text}'."))),
        }
    }

    /// The number of an option, or what stands for it, up to a limit of this command.
    pub fn number_up_to(&self, name: &str, otherwise: u64, largest: u64) -> Result<u64, Ending> {
        let number = self.number(name)?.unwrap_or(otherwise);
        if number > largest {
            return Err(misuse(format!(
                "{name} is at most {largest}, not {number}."
            )));
        }
        Ok(number)
    }
}

fn unknown(word: &str) -> Ending {
    if word.starts_with('-') {
        return misuse(format!("unknown option {word}; say pondreszi --help."));
    }
    misuse(format!(
        "'{word}' is not expected here; say pondreszi --help."
    ))
}

fn misuse(sentence: String) -> Ending {
    Ending::misuse(&sentence)
}
