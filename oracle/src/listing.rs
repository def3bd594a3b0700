//! Document 01, "Table E and its listing": the listing program's text.

use std::fmt::Write;

use crate::builder::build;
use crate::net::Image;
use crate::rewrite::rewritten;
use crate::table::check;

/// "an image above 16,384 words 10".
pub const LISTED_WORDS: usize = 16_384;

/// The words of a file, "low byte first"; "an odd last byte is 3 (after 1 and 2)".
pub fn words_of(bytes: &[u8]) -> Result<Vec<u16>, u32> {
    let pairs = bytes.chunks_exact(2);
    let odd = !pairs.remainder().is_empty();
    let words: Vec<u16> = pairs
        .map(|pair| u16::from_le_bytes([pair[0], pair[1]]))
        .collect();
    if odd {
        let cause = check(&words);
        return Err(if cause == 1 || cause == 2 { cause } else { 3 });
    }
    Ok(words)
}

/// "prints the first five header words, then per transition its number, label, inputs and
/// outputs. A refusal prints `refused` and the number". Every line ends with a line feed.
pub fn listing(bytes: &[u8]) -> String {
    match list(bytes) {
        Ok(text) => text,
        Err(cause) => format!("refused {cause}\n"),
    }
}

/// "the listing, which rewrites first" (document 02, item 1).
fn list(bytes: &[u8]) -> Result<String, u32> {
    let words = rewritten(&words_of(bytes)?)?;
    let mut out = vec![0; LISTED_WORDS];
    let length = build(&words, &mut out)?;
    let mut text = numbers(&out[..5]);
    text.push('\n');
    if let Some(image) = Image::open(&out[..length]) {
        for number in 0..image.transitions {
            text.push_str(&transition_line(&image, number));
        }
    }
    Ok(text)
}

/// `0 2 0 1 : 5 7 9 > 0 5 10`.
fn transition_line(image: &Image, number: u32) -> String {
    let [kind, a, b, ..] = image.record(number);
    let mut line = numbers(&[number, kind, a, b]);
    if let Some(transition) = image.arcs(number) {
        let (inputs, outputs) = (numbers(transition.inputs), numbers(transition.outputs));
        // Writing to a String cannot fail.
        let _ = writeln!(line, " : {inputs} > {outputs}");
    }
    line
}

/// Numbers with a space between.
fn numbers(list: &[u32]) -> String {
    let texts: Vec<String> = list.iter().map(u32::to_string).collect();
    texts.join(" ")
}
