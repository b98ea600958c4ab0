//! Why a command ended early.

use jukesogbi::core::Refused;

pub enum Stop {
    /// A refusal of the core, which is printed, and perhaps a word on the file.
    Refused(Refused, Option<&'static str>),
    /// Answers that were printed already, one a line: some are refusals, or some lines were no question.
    Answered { wrong: bool },
    /// Wrong use. The command's usage is put to it.
    Slip(String),
    /// A file, a stream or memory that failed.
    Fault(String),
    /// Nobody reads the lines of standard output any more.
    Closed,
}

impl From<Refused> for Stop {
    fn from(r: Refused) -> Stop {
        Stop::Refused(r, None)
    }
}

impl Stop {
    /// Wrong use with the usage of the command.
    pub fn with_usage(self, usage: &str) -> Stop {
        match self {
            Stop::Slip(cause) => Stop::Slip(format!("{cause}\nusage: jukesogbi {usage}")),
            stop => stop,
        }
    }
}

pub type Done = Result<(), Stop>;

pub fn slip<T>(text: impl Into<String>) -> Result<T, Stop> {
    Err(Stop::Slip(text.into()))
}

pub fn fault<T>(text: impl Into<String>) -> Result<T, Stop> {
    Err(Stop::Fault(text.into()))
}
