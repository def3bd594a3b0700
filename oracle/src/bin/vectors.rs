//! `vectors requests` prints the requests of crates/vectors/stdin; `vectors answers` reads requests
//! on standard input and prints their answers; `vectors count` says what the requests hold.

use std::io::Read;
use std::process::ExitCode;

use oracle::vectors::{answers, counts, requests};

fn main() -> ExitCode {
    let arguments: Vec<String> = std::env::args().skip(1).collect();
    let text = match arguments.iter().map(String::as_str).collect::<Vec<_>>()[..] {
        ["requests"] => Ok(requests()),
        ["answers"] => input().and_then(|input| answers(&input)),
        ["count"] => counts(&requests()),
        _ => Err("usage: vectors requests | vectors answers | vectors count".to_string()),
    };
    oracle::program::print(text)
}

fn input() -> Result<String, String> {
    let mut text = String::new();
    match std::io::stdin().read_to_string(&mut text) {
        Ok(_) => Ok(text),
        Err(error) => Err(error.to_string()),
    }
}
