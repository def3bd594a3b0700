//! Asks the proved library and the oracle for the same on the same inputs, stops where they differ,
//! and then prints how fast each is.

mod case;
mod engine;
mod inputs;
mod jobs;
mod library;
mod measure;
mod scheme;
mod second;
mod summary;

use std::process::ExitCode;

use case::{Both, Case};
use engine::Engine;
use jobs::{plain_write, single_write, Buffers, Job, BUILD, OTHERS};
use library::Library;
use measure::{best_of_rounds, ROUNDS};
use oracle::table::{accept, Branch, NameKind};
use second::Oracle;

fn main() -> ExitCode {
    let both = Both {
        library: &Library,
        oracle: &Oracle,
    };
    print_method();
    for input in inputs::inputs() {
        let title = input.title;
        match both.prepare(input) {
            Ok(case) => {
                report(&both, &case);
                if !summary::report(&case) {
                    eprintln!("{title}: a summary does not tell what a search finds");
                    return ExitCode::FAILURE;
                }
            }
            Err(message) => {
                eprintln!("{title}: {message}");
                return ExitCode::FAILURE;
            }
        }
    }
    ExitCode::SUCCESS
}

fn print_method() {
    println!(
        "Both engines gave the same answers and outputs before they were timed. Each figure is the best of {ROUNDS}\n\
         rounds, by the thread's processor time; in each round the library and the oracle have their turns. Buffers\n\
         are written once before, and not cleared between calls. Before each run, and before each row of single\n\
         firings or of looks, the initial marking is copied; each look but the first is at the marking that the one\n\
         before it showed. A plain write puts a changing word in each of as many words as the image has: wide, in a\n\
         loop that the compiler may turn into wide stores; single, with one store a word. The last two lines compare\n\
         two ways of the library: the lowest enabled transition of a summary, and by a run with limit 1 on a copy of\n\
         the marking; and firings that keep a summary, and firings after each of which one is made."
    );
}

fn report(both: &Both, case: &Case) {
    println!("\n{}\n{}", case.title, counts(&case.table));
    println!(
        "places {}, transitions {}, image words {}, firings of the runs {} and {}",
        case.image[0],
        case.image[1],
        case.image.len(),
        case.settled.len(),
        case.history.len()
    );
    println!(
        "{:22} {:>15} {:>15} {:>15}",
        "per second", "library", "oracle", "library/oracle"
    );
    report_build(both, case);
    for job in &OTHERS {
        let mut buffers = [Buffers::of(case), Buffers::of(case)];
        let [lent, other] = &mut buffers;
        let seconds =
            best_of_rounds(
                &mut [&mut || (job.turn)(both.library, case, lent), &mut || {
                    (job.turn)(both.oracle, case, other)
                }],
            );
        print_rates(job, case, &seconds);
    }
}

/// What a table has.
fn counts(words: &[u16]) -> String {
    let Ok(table) = accept(words) else {
        return "a table that is refused".to_string();
    };
    let names = |kind| table.names.iter().filter(|&&name| name == kind).count();
    let send = |branch: &&Branch| matches!(branch, Branch::Send { .. });
    format!(
        "threads {}, nodes {}, public names {}, restricted {}, inputs {}, formals {}, sends {}",
        table.entries.len(),
        table.nodes.len(),
        table.publics,
        names(NameKind::Restricted),
        names(NameKind::Input),
        names(NameKind::Formal),
        table.branches.iter().filter(send).count()
    )
}

/// Building beside plain writes of as many words.
fn report_build(both: &Both, case: &Case) {
    let mut buffers = [Buffers::of(case), Buffers::of(case)];
    let [lent, other] = &mut buffers;
    let (mut wide, mut single) = (case.image.clone(), case.image.clone());
    let build = |engine: &dyn Engine, buffers: &mut Buffers| (BUILD.turn)(engine, case, buffers);
    let seconds = best_of_rounds(&mut [
        &mut || build(both.library, lent),
        &mut || build(both.oracle, other),
        &mut || plain_write(&mut wide, 1),
        &mut || single_write(&mut single, 1),
    ]);
    print_rates(&BUILD, case, &seconds);
    for (title, write) in [("wide", seconds[2]), ("single", seconds[3])] {
        println!(
            "{:22} {:>15.0}   the library builds at {:.3} of this speed",
            format!("plain write, {title}"),
            case.image.len() as f64 / write,
            write / seconds[0]
        );
    }
}

fn print_rates(job: &Job, case: &Case, seconds: &[f64]) {
    let units = (job.units)(case) as f64;
    println!(
        "{:22} {:>15.0} {:>15.0} {:>15.2}",
        job.title,
        units / seconds[0],
        units / seconds[1],
        seconds[1] / seconds[0]
    );
}
