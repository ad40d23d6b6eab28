use std::io::{self, Write};
use std::process::ExitCode;

use pondreszi::{Refused, RefusedEvent};

/// How the command ends: what it writes on standard output, a sentence on standard error, and the
/// exit status.
#[derive(Debug)]
pub struct Ending {
    output: Vec<u8>,
    sentence: Option<String>,
    status: u8,
}

const DONE: u8 = 0;
const REFUSED: u8 = 1;
const MISUSED: u8 = 2;

impl Ending {
    pub fn done(output: impl Into<Vec<u8>>) -> Ending {
        Ending {
            output: output.into(),
            sentence: None,
            status: DONE,
        }
    }

    /// Done, with something to say beside the output.
    pub fn with_sentence(self, sentence: String) -> Ending {
        Ending {
            sentence: Some(sentence),
            ..self
        }
    }

    /// Status 1: a refusal, or a link that did not deliver.
    pub fn refused(sentence: String) -> Ending {
        Ending {
            output: Vec::new(),
            sentence: Some(sentence),
            status: REFUSED,
        }
    }

    /// With what can be shown in spite of it.
    pub fn with_output(self, output: impl Into<Vec<u8>>) -> Ending {
        Ending {
            output: output.into(),
            ..self
        }
    }

    /// Status 2: the command or its input is not what the help says.
    pub fn misuse(sentence: &str) -> Ending {
        Ending {
            output: Vec::new(),
            sentence: Some(sentence.to_owned()),
            status: MISUSED,
        }
    }

    pub fn tell(self) -> ExitCode {
        let mut output = io::stdout().lock();
        let written = output.write_all(&self.output).and_then(|()| output.flush());
        if let Some(sentence) = self.sentence {
            eprintln!("pondreszi: {sentence}");
        }
        if let Err(error) = written {
            eprintln!("pondreszi: the standard output cannot be written: {error}.");
            return ExitCode::from(MISUSED);
        }
        ExitCode::from(self.status)
    }
}

/// A refusal by its number, its name, its place if any, and what it means.
impl From<Refused> for Ending {
    fn from(refused: Refused) -> Ending {
        Ending::refused(format!("{refused}: {}.", refused.refusal.meaning()))
    }
}

impl From<RefusedEvent> for Ending {
    fn from(refused: RefusedEvent) -> Ending {
        Refused::from(refused).into()
    }
}
