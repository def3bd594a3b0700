//! Rewrites a table whose definitions call themselves, builds its net, runs it from its initial marking, makes each
//! firing of the run again after a look at what it would leave, and reads the state back. What is a copy is shown with
//! the number in the table that it is a copy of.
//!
//!     run [TABLE-FILE [LIMIT [next]]]
//!
//! A table file has 16-bit words, low byte first. With no file it is table E, a new name sent from one thread to
//! another; the limit is 5 firings unless it is given. With `next` it prints before each firing, and at the end, how
//! many transitions are enabled and the lowest of them. Ends with 1 where the library refuses, with 2 where the program
//! cannot do what it was asked.
use dekohuna::Answer;
use std::process::exit;

const TABLE_E: [u16; 48] = [
    1, 2, 2, 2, 5, 2, 0, 13, 15, 23, 25, 40, 48, // counts and offsets
    0, 1, // names
    0, 0, 0, 0, 1, 3, 0, 0, // definitions
    0, 1, // threads
    2, 1, 1, 1, 0, 1, 0, 0, 0, 1, 1, 1, 0, 0, 0, // nodes
    1, 0, 1, 2, 2, 0, 2, 4, // branches
];

fn fail(what: &str) -> ! {
    eprintln!("run: {what}");
    exit(2);
}

/// What a call counted; ends the program where it was refused.
fn accepted(answer: Answer) -> usize {
    if answer.code != dekohuna::DONE {
        println!("refused: cause {}", answer.code);
        exit(1);
    }
    answer.value as usize
}

/// The words of a file. A table has fewer than 4,096: more are cut off, and the library refuses what is left.
fn read_table(path: &str) -> Vec<u16> {
    let bytes = std::fs::read(path).unwrap_or_else(|_| fail("the table cannot be opened"));
    let kept = &bytes[..bytes.len().min(8192)];
    if kept.len() % 2 == 1 {
        fail("the table cannot be read as 16-bit words");
    }
    kept.chunks(2)
        .map(|pair| u16::from_le_bytes([pair[0], pair[1]]))
        .collect()
}

/// The table in which no definition calls itself; one that is so already is rewritten to itself.
fn rewrite(table: &[u16]) -> Vec<u16> {
    let mut rewritten = vec![0; 2229]; // the longest table
    let words = accepted(dekohuna::rewrite(table, &mut rewritten));
    rewritten.truncate(words);
    rewritten
}

/// The image of a table, in a buffer of just its size.
fn build(table: &[u16]) -> Vec<u32> {
    let mut image = vec![0; accepted(dekohuna::size(table))];
    accepted(dekohuna::build(table, &mut image));
    image
}

/// A number of the rewritten table, and, of a copy, the number that it is a copy of.
fn with_original(number: u32, original: Answer) -> String {
    let first = accepted(original);
    if first == number as usize {
        return number.to_string();
    }
    format!("{number} (copy of {first})")
}

/// What a label says, by the table that was rewritten.
fn label_text(table: &[u16], kind: u32, a: u32, b: u32) -> String {
    let node = |n| {
        format!(
            "node {}",
            with_original(n, dekohuna::original_node(table, n))
        )
    };
    let branch = |n| {
        format!(
            "branch {}",
            with_original(n, dekohuna::original_branch(table, n))
        )
    };
    let name = |n| with_original(n, dekohuna::original_name(table, n));
    match kind {
        0 => format!("{} copies a value to formal {}", node(a), name(b)),
        1 => format!("{} releases name {}", node(a), name(b)),
        2 => format!("{} makes a new value for name {}", node(a), name(b)),
        3 => format!("{} goes on silently", branch(a)),
        4 => format!("{} sends to {}", branch(a), branch(b)),
        _ => format!("{} calls its definition", node(a)),
    }
}

/// A firing, by its label.
fn print_firing(table: &[u16], image: &[u32], number: u32) {
    let record = image[6] as usize + 6 * number as usize;
    let (kind, a, b) = (image[record], image[record + 1], image[record + 2]);
    println!(
        "fired {number} ({kind} {a} {b}): {}",
        label_text(table, kind, a, b)
    );
}

/// How many transitions are enabled, and the lowest of them.
fn print_next(enabled: &[u64]) {
    let number = accepted(dekohuna::summary_number(enabled));
    let lowest = dekohuna::summary_lowest(enabled);
    if lowest.code == dekohuna::DONE {
        println!("can be done next: {number}, the lowest is {}", lowest.value);
    } else {
        println!("can be done next: {number}");
    }
}

/// Makes the firings of a history once more, each after a look at what it would leave, and prints them. A summary
/// beside the marking tells what can be done next, which is printed if it is asked for.
fn fire_again(table: &[u16], image: &[u32], history: &[u32], next_too: bool) {
    let transitions = image[1] as usize;
    let mut marking = vec![0; image[0] as usize];
    let mut next = marking.clone();
    let mut counts = vec![0; transitions];
    let mut enabled = vec![0; transitions.div_ceil(64)];
    accepted(dekohuna::replay(image, &mut marking, &[]));
    accepted(dekohuna::summary_make(
        image,
        &marking,
        &mut counts,
        &mut enabled,
    ));
    for &number in history {
        if next_too {
            print_next(&enabled);
        }
        if enabled[number as usize / 64] >> (number % 64) & 1 == 0 {
            fail("the run fired a transition that the set has not");
        }
        accepted(dekohuna::look(image, &marking, number, &mut next));
        accepted(dekohuna::summary_fire(
            image,
            &mut marking,
            &mut counts,
            &mut enabled,
            number,
        ));
        if marking != next {
            fail("a firing leaves another marking than the look showed");
        }
        print_firing(table, image, number);
    }
    if next_too {
        print_next(&enabled);
    }
    accepted(dekohuna::summary_check(image, &marking, &counts, &enabled));
}

fn reason(code: u8) -> &'static str {
    match code {
        dekohuna::LIMIT_REACHED => "limit reached",
        dekohuna::HISTORY_FULL => "history full",
        dekohuna::NOTHING_ENABLED => "nothing enabled",
        _ => "stopped by a cause",
    }
}

/// The node of each thread, then the value of each bound name.
fn print_state(table: &[u16], state: &[u16]) {
    let (publics, threads) = (table[0], table[3] as usize);
    for (thread, &number) in state[..threads].iter().enumerate() {
        let node = with_original(number.into(), dekohuna::original_node(table, number.into()));
        println!("thread {thread} stands at node {node}");
    }
    for (number, &value) in (publics.into()..).zip(&state[threads..]) {
        let name = with_original(number, dekohuna::original_name(table, number));
        if value == 65535 {
            println!("name {name} is not held");
        } else {
            let kind = if value < publics { "public" } else { "private" };
            println!("name {name} has the {kind} value {value}");
        }
    }
}

fn run(own: &[u16], limit: usize, next_too: bool) {
    let table = rewrite(own);
    let image = build(&table);
    let (places, transitions) = (image[0], image[1]);
    let (words, written) = (table.len(), image.len());
    println!("table of {words} words: net of {places} places and {transitions} transitions in {written} words");

    let mut marking = vec![0; places as usize];
    accepted(dekohuna::replay(&image, &mut marking, &[]));
    let mut history = vec![0; limit];
    let ran = dekohuna::run(&image, &mut marking, limit as u64, &mut history);
    fire_again(own, &image, &history[..ran.value as usize], next_too);
    println!(
        "firings made: {}, {} ({})",
        ran.value,
        reason(ran.code),
        ran.code
    );

    let mut state = [0; 40]; // at most 8 threads and 32 bound names
    let held = accepted(dekohuna::read(&table, &marking, &mut state));
    print_state(own, &state[..held]);
}

fn main() {
    let arguments: Vec<String> = std::env::args().skip(1).collect();
    let next_too = arguments.get(2).is_some_and(|given| given == "next");
    if arguments.len() > 3 || (arguments.len() == 3 && !next_too) {
        fail("usage: run [TABLE-FILE [LIMIT [next]]]");
    }
    let limit = match arguments.get(1) {
        None => 5,
        Some(given) => match given.parse() {
            Ok(limit) if limit <= 10000000 => limit,
            _ => fail("the limit is a number up to 10000000"),
        },
    };
    let table = arguments
        .first()
        .map_or(TABLE_E.to_vec(), |path| read_table(path));
    run(&table, limit, next_too);
}
