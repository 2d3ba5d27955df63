//! The oracle's command line.

mod arguments;
mod commands;
mod kinds;
mod smallest;

use std::process::ExitCode;

/// Why a command did not do what was asked.
pub enum Trouble {
    /// Bad input: status 2.
    Input(String),
    /// Answers that differ: status 1.
    Differs(String),
}

impl From<String> for Trouble {
    fn from(message: String) -> Self {
        Self::Input(message)
    }
}

impl From<oracle::Disagreement> for Trouble {
    fn from(difference: oracle::Disagreement) -> Self {
        Self::Differs(format!("the answers differ\n{difference}"))
    }
}

fn main() -> ExitCode {
    match commands::run(std::env::args_os().skip(1)) {
        Ok(()) => ExitCode::SUCCESS,
        Err(Trouble::Input(message)) => {
            eprintln!("oracle: {message}");
            ExitCode::from(2)
        }
        Err(Trouble::Differs(message)) => {
            eprintln!("oracle: {message}");
            ExitCode::from(1)
        }
    }
}
