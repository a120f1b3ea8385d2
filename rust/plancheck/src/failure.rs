//! Why a command could not do its work.

/// The exit code tells a wrong call from wrong content.
#[derive(Clone, Debug, PartialEq, Eq)]
pub enum Failure {
    /// Wrong use; the command's help follows the message.
    Usage(String),
    /// A file that cannot be read or written.
    Unreadable(String),
    /// A file with content that the command cannot work on.
    Content(String),
    /// A search that stopped with nothing to tell.
    Unfinished(String),
}

impl Failure {
    pub fn message(&self) -> &str {
        match self {
            Failure::Usage(message)
            | Failure::Unreadable(message)
            | Failure::Content(message)
            | Failure::Unfinished(message) => message,
        }
    }

    pub fn exit_code(&self) -> u8 {
        match self {
            Failure::Usage(_) | Failure::Unreadable(_) | Failure::Unfinished(_) => 2,
            Failure::Content(_) => 1,
        }
    }
}
