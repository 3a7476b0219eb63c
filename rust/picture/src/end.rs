//! The five ends of the program: what is said, where, and the exit code.

use std::process::ExitCode;

/// How the program ends. All but a yes have a sentence that is still to be said.
pub enum End {
    Yes,
    No(String),
    /// Wrong use, an unknown word, or a file that can't be read or written.
    Use(String),
    Refused(String),
    Full(String),
}

impl End {
    pub fn code(&self) -> ExitCode {
        ExitCode::from(match self {
            End::Yes => 0,
            End::No(_) => 1,
            End::Use(_) => 2,
            End::Refused(_) => 3,
            End::Full(_) => 4,
        })
    }

    /// Says the end, and whether there is a picture: a yes and a no on standard
    /// output, complaints on standard error.
    pub fn say(&self, old_removed: bool, picture: &str) {
        let none = match old_removed {
            true => format!("There is no picture: the old {picture} was removed."),
            false => "There is no picture.".to_string(),
        };
        match self {
            End::Yes => println!("The picture is in {picture}."),
            End::No(said) => println!("{said}\n{none}"),
            End::Use(said) | End::Refused(said) | End::Full(said) => eprintln!("{said}\n{none}"),
        }
    }
}
