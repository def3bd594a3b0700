//! `oracle list FILE` prints the listing of a table file; `oracle check FILE` prints `accepted`
//! or `refused` and the cause; `oracle rewrite FILE` prints the words of the rewritten table in
//! decimal, or `refused` and the cause.

use std::process::ExitCode;

use oracle::listing::words_of;

const USAGE: &str = "usage: oracle list FILE | oracle check FILE | oracle rewrite FILE";

fn main() -> ExitCode {
    let arguments: Vec<String> = std::env::args().skip(1).collect();
    oracle::program::print(match arguments.as_slice() {
        [command, path] => told(command, path),
        _ => Err(USAGE.to_string()),
    })
}

fn told(command: &str, path: &str) -> Result<String, String> {
    let bytes = std::fs::read(path).map_err(|error| format!("{path}: {error}"))?;
    match command {
        "list" => Ok(oracle::listing(&bytes)),
        "check" => Ok(checked(&bytes)),
        "rewrite" => Ok(rewritten(&bytes)),
        _ => Err(USAGE.to_string()),
    }
}

fn checked(bytes: &[u8]) -> String {
    let cause = match words_of(bytes) {
        Ok(words) => oracle::check(&words),
        Err(cause) => cause,
    };
    match cause {
        0 => "accepted\n".to_string(),
        cause => format!("refused {cause}\n"),
    }
}

fn rewritten(bytes: &[u8]) -> String {
    let words = words_of(bytes).and_then(|words| oracle::rewrite::rewritten(&words));
    match words {
        Ok(words) => words.iter().map(|word| format!("{word}\n")).collect(),
        Err(cause) => format!("refused {cause}\n"),
    }
}
