//! What the programs share.

use std::io::Write;
use std::process::ExitCode;

/// Prints a program's text, or what went wrong, and says how the program ended.
pub fn print(text: Result<String, String>) -> ExitCode {
    let written = text.and_then(|text| {
        std::io::stdout()
            .write_all(text.as_bytes())
            .map_err(|error| error.to_string())
    });
    match written {
        Ok(()) => ExitCode::SUCCESS,
        Err(message) => {
            eprintln!("{message}");
            ExitCode::FAILURE
        }
    }
}
