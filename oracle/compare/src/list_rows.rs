//! The rows of the list that crates/replay asks again: cells, classes and counts, of the rows of `board`.

use crate::Place;
use crate::ask_rows;
use crate::board::{self, Made, Met};
use crate::list::{self, Case, List, Question};
use crate::random::Random;
use std::ops::Range;

/// Longer rows are left out, and longer bytes of marked rows.
const ROW: usize = 600;
const MARKED: usize = 1_000;

/// What a count counts.
const COUNTED: [&str; 4] = ["venues", "trading", "not trading", "not known"];

/// How often each entry has what a query can meet at least, if the run met it.
fn wanted(name: &str) -> u64 {
    if name.starts_with("damage") { 2 } else { 6 }
}

/// The cases of one entry: what they meet, and those that are kept.
#[derive(Default)]
struct Kept {
    met: Met,
    list: List,
}

impl Kept {
    /// Keeps the case if it has something that these have too little of. `met` is what this one case meets.
    fn offer(&mut self, case: &Case, mut met: Met, longest: usize) {
        let bytes = if case.book.is_empty() { "no" } else { "some" };
        met.add(format!("number {} of {bytes} bytes", case.number));
        if case.book.len() <= longest && self.met.lacks(&met, wanted) {
            self.met.join(&met);
            self.list.push(case);
        }
    }

    fn print(&self, name: &str) {
        println!("{name}");
        self.met.print();
        println!("cases {}", self.list.cases());
    }
}

#[derive(Default)]
struct Rows {
    cells: Kept,
    classes: Kept,
    counts: Kept,
}

impl Rows {
    /// A row's cells and its class. `of` is what the row itself meets.
    fn ask(&mut self, place: Place, bytes: &[u8], edges: &[i64], of: &Met, random: &mut Random) {
        let mut met = of.clone();
        let cells = ask_rows::cells(random, edges);
        let asked = board::ask_cells(place, bytes, &cells, random, &mut met);
        let case = Case {
            book: bytes,
            zeros: false,
            question: Question::Cells(cells),
            room: asked.room,
            number: asked.number,
            answer: &asked.answer,
        };
        self.cells.offer(&case, met, ROW);
        let (mut met, at) = (of.clone(), ask_rows::instant(random, edges));
        let (number, class) = board::ask_class(place, bytes, at, &mut met);
        let case = Case {
            book: bytes,
            zeros: false,
            question: Question::Class(at),
            room: 0,
            number,
            answer: &list::class_bytes(class),
        };
        self.classes.offer(&case, met, ROW);
    }

    /// The count of marked rows.
    fn ask_marked(&mut self, place: Place, good: &[Made], random: &mut Random) {
        let mut met = Met::default();
        let rows = board::marked(good, random, &mut met);
        for way in &rows.ways {
            met.add(format!("damage {way}"));
        }
        let at = ask_rows::instant(random, &rows.edges);
        let (number, counted) = board::ask_count(place, &rows.bytes, at, &mut met);
        for (name, many) in COUNTED.iter().zip(counted) {
            match many {
                0 => continue,
                1 => met.add(format!("counted {name}")),
                _ => met.add(format!("counted {name}, more than one")),
            }
        }
        let case = Case {
            book: &rows.bytes,
            zeros: false,
            question: Question::Count(at),
            room: 0,
            number,
            answer: &list::count_bytes(counted),
        };
        self.counts.offer(&case, met, MARKED);
    }
}

/// The rows of the list: as many as give each thing that a query can meet its share.
pub fn list(seed: u64, places: Range<u64>) -> List {
    let mut rows = Rows::default();
    for book in places {
        let place = Place { seed, book };
        let mut random = Random::new(seed, book);
        let good = board::rows(&mut random);
        for row in &good {
            let edges = ask_rows::edges(&row.held);
            let mut of = Met::default();
            board::count_row(row, &mut of);
            rows.ask(place, &row.records.concat(), &edges, &of, &mut random);
            let mut of = Met::default();
            let bytes = board::damaged(row, &mut random, &mut of);
            rows.ask(place, &bytes, &edges, &of, &mut random);
        }
        for _ in 0..8 {
            rows.ask_marked(place, &good, &mut random);
        }
    }
    rows.cells.print("cells");
    rows.classes.print("classes");
    rows.counts.print("counts");
    let mut list = rows.cells.list;
    list.append(rows.classes.list);
    list.append(rows.counts.list);
    list
}
