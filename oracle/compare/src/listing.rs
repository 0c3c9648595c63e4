//! The listing program, run on generated inputs, against the text that the original Rust's own segments make.

use crate::answer::{self, Answer};
use crate::ask;
use crate::given::{Query, Venue};
use crate::judge::LONGEST;
use crate::random::Random;
use crate::{Asking, books_and_windows, hex};
use std::collections::BTreeMap;
use std::io::Write;
use std::process::{Command, ExitStatus, Stdio, exit};

/// Kind 33 with its length: start and end behind it.
const FIRST_BYTES: usize = 20;

fn first_record(start: i64, end: i64) -> Vec<u8> {
    [
        &18u16.to_le_bytes()[..],
        &33u16.to_le_bytes(),
        &start.to_le_bytes(),
        &end.to_le_bytes(),
    ]
    .concat()
}

/// A window's record and a book, now and then with something wrong with the record or with the whole length.
fn input(random: &mut Random, (start, end): (i64, i64), book: &[u8]) -> Vec<u8> {
    let mut made = [&first_record(start, end), book].concat();
    match random.below(100) {
        0..2 => made.clear(),
        2..6 => made.truncate(random.below(FIRST_BYTES)),
        6..9 => made[2] ^= 1 << random.below(8),
        9..11 => made[random.below(2)] ^= 1 << random.below(8),
        11..13 => drop(made.remove(random.below(FIRST_BYTES))),
        13..14 => made.resize(LONGEST + 1 + random.below(2) * random.below(30_000), 0),
        14..15 => made.resize(LONGEST, 0),
        _ => {}
    }
    made
}

/// The inputs of one place of a run, some with answers longer than the room.
fn inputs(random: &mut Random) -> Vec<Vec<u8>> {
    let mut made = Vec::new();
    for asking in books_and_windows(random) {
        let Asking {
            bytes,
            opened,
            mut windows,
        } = asking;
        random.shuffle(&mut windows);
        windows.truncate(2);
        if let (Ok(venue), true) = (&opened, random.percent(8))
            && venue.parts().is_some()
        {
            windows.extend(ask::long_windows(random, venue, 1));
        }
        for edges in windows {
            made.push(input(random, edges, &bytes));
        }
    }
    random.shuffle(&mut made);
    made.truncate(4);
    made
}

fn refused(number: u32) -> (u32, String) {
    (number, format!("timeline {number} 0\n"))
}

fn line(answer: &Answer) -> String {
    match answer {
        Answer::Phase(p) => format!("P {} {} {} {}\n", p.start, p.end, p.phase, p.evidence),
        Answer::Unknown { start, end, .. } => format!("U {start} {end}\n"),
        Answer::Event { at, code, .. } => format!("E {at} {code}\n"),
        other => unreachable!("no part of a timeline: {other:?}"),
    }
}

/// The number and the text of an input.
fn expected(input: &[u8]) -> (u32, String) {
    if input.len() > LONGEST {
        return refused(1);
    }
    if input.len() < FIRST_BYTES || input[..4] != [18, 0, 33, 0] {
        return refused(2);
    }
    let edge = |at: usize| i64::from_le_bytes(input[at..at + 8].try_into().expect("8 bytes"));
    let (start, end) = (edge(4), edge(12));
    let venue = match Venue::open(&input[FIRST_BYTES..]) {
        Ok(venue) => venue,
        Err(number) => return refused(number),
    };
    if let Err(number) = venue.answer(&Query::Window { start, end }) {
        return refused(number);
    }
    let segments = venue.window(start, end);
    if answer::encode(&segments).len() > LONGEST {
        return refused(16);
    }
    let lines: String = segments.iter().map(line).collect();
    let count = segments
        .iter()
        .filter(|s| !matches!(s, Answer::Event { .. }))
        .count();
    (0, format!("timeline 0 {count}\n{lines}"))
}

/// What the program printed, and how it ended: a status other than 0, or a signal, is a difference too.
fn printed(program: &[String], input: &[u8]) -> (ExitStatus, String) {
    let mut child = Command::new(&program[0])
        .args(&program[1..])
        .stdin(Stdio::piped())
        .stdout(Stdio::piped())
        .spawn()
        .expect("the program starts");
    // A program that reads no further than it needs closes its end early: no fault of ours.
    let _ = child.stdin.take().expect("a pipe").write_all(input);
    let output = child.wait_with_output().expect("the program ends");
    let text = String::from_utf8(output.stdout).expect("text");
    (output.status, text)
}

/// Runs the program on so many inputs, and prints how many met each number.
pub fn run(seed: u64, from: u64, wanted: u64, program: &[String]) {
    let mut numbers = BTreeMap::<u32, u64>::new();
    let mut lines = BTreeMap::<char, u64>::new();
    let (mut done, mut negative, mut longest) = (0, 0, 0);
    let (mut empty, mut bad_first, mut full) = (0, 0, 0);
    let mut place = from;
    while done < wanted {
        let mut random = Random::new(seed, place);
        for input in inputs(&mut random) {
            let (number, text) = expected(&input);
            let (status, got) = printed(program, &input);
            if got != text || !status.success() {
                println!("DIFFERENCE: --seed {seed} --from {place}");
                println!("input {}", hex(&input));
                println!("Rust\n{text}port, {status}\n{got}");
                exit(1);
            }
            done += 1;
            empty += u64::from(input.is_empty());
            bad_first += u64::from(input.len() <= LONGEST && !input.starts_with(&[18, 0, 33, 0]));
            full += u64::from(input.len() == LONGEST);
            *numbers.entry(number).or_default() += 1;
            for line in text.lines().skip(1) {
                *lines
                    .entry(line.chars().next().expect("a letter"))
                    .or_default() += 1;
            }
            negative += u64::from(text.contains(" -"));
            longest = longest.max(text.len());
        }
        place += 1;
    }
    println!("inputs {done}");
    for (number, times) in numbers {
        println!("number {number} {times}");
    }
    println!("empty {empty}");
    println!("with another first record {bad_first}");
    println!("of 65,536 bytes {full}");
    for (letter, times) in lines {
        println!("{letter} lines {times}");
    }
    println!("with negative instants {negative}");
    println!("longest text {longest}");
    println!("differences 0");
}
