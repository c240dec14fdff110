//! The errors of calls without answers.

#[cfg(feature = "json")]
use crate::typed::Fault;
use std::fmt;

/// The error of a call: the status and the line of the program.
#[derive(Clone, Debug, PartialEq, Eq)]
pub struct Stop {
    /// 4: the text is no graph, or to be put no module. 5: the graph or module is refused. 7: an allocation failed.
    pub status: u8,
    pub line: String,
}

impl Stop {
    pub(crate) fn new(status: u8, line: &[u8]) -> Stop {
        Stop {
            status,
            line: String::from_utf8_lossy(line).into_owned(),
        }
    }
}

impl fmt::Display for Stop {
    fn fmt(&self, f: &mut fmt::Formatter<'_>) -> fmt::Result {
        f.write_str(&self.line)
    }
}

impl std::error::Error for Stop {}

/// The error of a call without values.
#[cfg(feature = "json")]
#[derive(Debug)]
pub enum Error {
    /// The call has no answers.
    Stop(Stop),
    /// An answer can't be read as JSON.
    Json(serde_json::Error),
    /// The query has no answer.
    Fault(Fault),
}

#[cfg(feature = "json")]
impl fmt::Display for Error {
    fn fmt(&self, f: &mut fmt::Formatter<'_>) -> fmt::Result {
        match self {
            Error::Stop(stop) => stop.fmt(f),
            Error::Json(error) => error.fmt(f),
            Error::Fault(fault) => fault.fmt(f),
        }
    }
}

#[cfg(feature = "json")]
impl std::error::Error for Error {
    fn source(&self) -> Option<&(dyn std::error::Error + 'static)> {
        match self {
            Error::Stop(stop) => Some(stop),
            Error::Json(error) => Some(error),
            Error::Fault(fault) => Some(fault),
        }
    }
}

#[cfg(feature = "json")]
impl From<Stop> for Error {
    fn from(stop: Stop) -> Error {
        Error::Stop(stop)
    }
}
