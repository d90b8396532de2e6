//! Writes the text of a log again by a plain loop of `write!` into one buffer, and prints in nanoseconds how long the
//! quickest of some goes took, with the number of lines. What it wrote has to be what it read.
//! Usage: lines LOG REPETITIONS

use std::env;
use std::fs;
use std::io::Write;
use std::time::Instant;

/// A word of a line, as a program holds it: a name, or a number in one of the spellings of a log.
enum Word<'a> {
    Name(&'a str),
    Decimal(u64),
    Word(u32),
    Byte(u8),
}

/// A word, by the spelling that it has. Of two digits a decimal is meant, but where that spells it otherwise.
fn word_of(text: &str) -> Word<'_> {
    let decimal = text.parse::<u64>().ok().filter(|number| number.to_string() == text);
    match (text.len(), decimal) {
        (8, _) if u32::from_str_radix(text, 16).is_ok() => Word::Word(u32::from_str_radix(text, 16).unwrap()),
        (_, Some(number)) => Word::Decimal(number),
        (2, _) if u8::from_str_radix(text, 16).is_ok() => Word::Byte(u8::from_str_radix(text, 16).unwrap()),
        _ => Word::Name(text),
    }
}

fn write_all(out: &mut Vec<u8>, lines: &[Vec<Word<'_>>]) {
    for line in lines {
        let mut space = "";
        for word in line {
            match word {
                Word::Name(name) => write!(out, "{space}{name}"),
                Word::Decimal(number) => write!(out, "{space}{number}"),
                Word::Word(number) => write!(out, "{space}{number:08x}"),
                Word::Byte(number) => write!(out, "{space}{number:02x}"),
            }
            .expect("memory");
            space = " ";
        }
        writeln!(out).expect("memory");
    }
}

fn main() {
    let words: Vec<String> = env::args().collect();
    let [_, path, repetitions] = words.as_slice() else {
        panic!("usage: lines LOG REPETITIONS");
    };
    let text = fs::read_to_string(path).expect("a log");
    let lines: Vec<Vec<Word<'_>>> = text.lines().map(|line| line.split(' ').map(word_of).collect()).collect();
    let mut quickest = u128::MAX;
    for _ in 0..repetitions.parse::<u32>().expect("a number") {
        let mut out = Vec::new();
        let began = Instant::now();
        write_all(&mut out, &lines);
        quickest = quickest.min(began.elapsed().as_nanos());
        assert!(out == text.as_bytes(), "the text is another");
    }
    println!("{quickest} {}", lines.len());
}
