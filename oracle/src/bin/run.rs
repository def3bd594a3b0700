//! `run TABLE LIMIT` rewrites a table file, builds the net, runs it from its initial marking for at
//! most LIMIT firings, and reads the state back. What is a copy is shown with the number in the
//! table that it is a copy of. It prints what examples/c/run.c prints with the library.

use std::process::ExitCode;

use oracle::rewrite::{original_branch, original_name, original_node, rewritten};
use oracle::{build, listing::words_of, read, replay};
use oracle::{run, size, Reason, Refusal, RunAnswer};

const USAGE: &str = "usage: run TABLE LIMIT";

fn main() -> ExitCode {
    let arguments: Vec<String> = std::env::args().skip(1).collect();
    let text = match arguments.as_slice() {
        [path, limit] => run_file(path, limit),
        _ => Err(USAGE.to_string()),
    };
    oracle::program::print(text)
}

fn run_file(path: &str, limit: &str) -> Result<String, String> {
    let limit: u32 = limit.parse().map_err(|_| USAGE.to_string())?;
    let bytes = std::fs::read(path).map_err(|error| format!("{path}: {error}"))?;
    words_of(&bytes)
        .and_then(|table| run_table(&table, limit))
        .map_err(|cause| format!("refused: cause {cause}"))
}

/// The text of a run, or the cause of a refusal.
fn run_table(own: &[u16], limit: u32) -> Result<String, u32> {
    let table = &rewritten(own)?;
    let image = image_of(table)?;
    let alone = |refusal: Refusal| refusal.cause;
    let mut marking = vec![0; image[0] as usize];
    replay(&image, &mut marking, &[]).map_err(alone)?;
    let mut history = vec![0; limit as usize];
    let answer = run(&image, &mut marking, limit.into(), &mut history).map_err(alone)?;
    let mut state = vec![0; usize::from(table[1] + table[3])];
    read(table, &marking, &mut state)?;
    let mut lines = vec![net_line(table, &image)];
    let made = &history[..answer.firings as usize];
    for &number in made {
        lines.push(firing_line(own, &image, number)?);
    }
    lines.push(ending_line(answer));
    lines.extend(state_lines(own, &state)?);
    Ok(lines.join("\n") + "\n")
}

fn image_of(words: &[u16]) -> Result<Vec<u32>, u32> {
    let mut image = vec![0; size(words)?];
    build(words, &mut image)?;
    Ok(image)
}

fn net_line(table: &[u16], image: &[u32]) -> String {
    format!(
        "table of {} words: net of {} places and {} transitions in {} words",
        table.len(),
        image[0],
        image[1],
        image.len()
    )
}

/// A number of the rewritten table, and, of a copy, the number that it is a copy of.
fn with_original(number: u32, original: u32) -> String {
    if original == number {
        return number.to_string();
    }
    format!("{number} (copy of {original})")
}

fn node(own: &[u16], number: u32) -> Result<String, u32> {
    let original = original_node(own, number)?;
    Ok(format!("node {}", with_original(number, original)))
}

fn branch(own: &[u16], number: u32) -> Result<String, u32> {
    let original = original_branch(own, number)?;
    Ok(format!("branch {}", with_original(number, original)))
}

fn name(own: &[u16], number: u32) -> Result<String, u32> {
    Ok(with_original(number, original_name(own, number)?))
}

/// A firing, by what its label says.
fn firing_line(own: &[u16], image: &[u32], number: u32) -> Result<String, u32> {
    let record = image[6] as usize + 6 * number as usize;
    let (kind, a, b) = (image[record], image[record + 1], image[record + 2]);
    let what = match kind {
        0 => format!(
            "{} copies a value to formal {}",
            node(own, a)?,
            name(own, b)?
        ),
        1 => format!("{} releases name {}", node(own, a)?, name(own, b)?),
        2 => format!(
            "{} makes a new value for name {}",
            node(own, a)?,
            name(own, b)?
        ),
        3 => format!("{} goes on silently", branch(own, a)?),
        4 => format!("{} sends to {}", branch(own, a)?, branch(own, b)?),
        _ => format!("{} calls its definition", node(own, a)?),
    };
    Ok(format!("fired {number} ({kind} {a} {b}): {what}"))
}

fn ending_line(answer: RunAnswer) -> String {
    let reason = match answer.reason {
        Reason::LimitReached => "limit reached (200)",
        Reason::HistoryFull => "history full (201)",
        Reason::NothingEnabled => "nothing enabled (202)",
    };
    format!("firings made: {}, {reason}", answer.firings)
}

/// The node of each thread, then the value of each bound name.
fn state_lines(own: &[u16], state: &[u16]) -> Result<Vec<String>, u32> {
    let publics = own[0];
    let (nodes, values) = state.split_at(usize::from(own[3]));
    let mut lines = Vec::new();
    for (thread, &number) in nodes.iter().enumerate() {
        let place = node(own, number.into())?;
        lines.push(format!("thread {thread} stands at {place}"));
    }
    for (number, &value) in (publics..).zip(values) {
        let held = match value {
            65535 => "is not held".to_string(),
            _ if value < publics => format!("has the public value {value}"),
            _ => format!("has the private value {value}"),
        };
        lines.push(format!("name {} {held}", name(own, number.into())?));
    }
    Ok(lines)
}
