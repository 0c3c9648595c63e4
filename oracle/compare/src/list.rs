//! A sample of the original's answers as a fixed list, which the program crates/replay asks the port again.
//!
//! A record is an entry, a byte, and ten signed numbers of 8 bytes: the reply's number and the answer's length, the
//! lengths of the book and of the room, 1 where the book is all zeros, and five for the query; then the book's
//! bytes (none of zeros), then the answer's. Records stand in blocks of 65,536 bytes, none across an edge, with
//! zeros up to the edge. Entries: 1 point (its instant), 2 window, 3 tally (start, end), 4 cells (start, end, columns,
//! 1 where the now is marked, now), 5 class and 6 count (instant). A row's bytes stand where the book's do, and marked
//! rows' for a count.
//!
//! A class and a count are lent no room. As the answer's bytes stand the class's number, in 4, and the four counts,
//! venues, trading, not trading, not known, in 8 each; of a refusal too, where all are 0.

use crate::count::{By, Counts};
use crate::drawn::{Cells, Counted};
use crate::given::Query;
use crate::tally;

const BLOCK: usize = 65_536;

/// Longer books and answers are left out, but for a few long books that are answered.
const BOOK: usize = 700;
const ANSWER: usize = 1_500;
const LONG_BOOK: usize = 25_000;
const LONG_BOOKS: usize = 1;
/// A window's answer may be longer.
const ANSWER_OF_A_WINDOW: usize = 4_000;
const ROOM_OF_A_WINDOW: usize = 16_384;
/// So may few tallies' of 400 days. The program lends at most so much room.
const LONG_TALLIES: usize = 2;
const LENT: usize = 40_960;
/// So that the list has many books.
const CASES_OF_A_BOOK: u64 = 6;

/// How many cases of each name the list has at least, if the run met them.
fn quota(by: u8) -> u64 {
    if by == By::Situation as u8 { 40 } else { 16 }
}

#[derive(Default)]
pub struct List {
    records: Vec<Vec<u8>>,
    held: Counts,
    long: usize,
    /// Of the book at hand.
    of_book: u64,
}

/// What is asked: of a book, of a row, of marked rows.
#[derive(Clone, Copy)]
pub enum Question {
    Book(Query),
    Cells(Cells),
    Class(i64),
    Count(i64),
}

/// One question and the original's reply.
pub struct Case<'a> {
    /// Or the row's bytes, or the rows'.
    pub book: &'a [u8],
    pub zeros: bool,
    pub question: Question,
    pub room: usize,
    pub number: u32,
    pub answer: &'a [u8],
}

/// A class as the answer's bytes.
pub fn class_bytes(class: u32) -> Vec<u8> {
    class.to_le_bytes().to_vec()
}

/// Counts as the answer's bytes.
pub fn count_bytes(counted: Counted) -> Vec<u8> {
    counted.map(u64::to_le_bytes).concat()
}

/// The entry and the query's numbers.
fn numbers(question: Question) -> (u8, [i64; 5]) {
    match question {
        Question::Book(Query::Point { at }) => (1, [at, 0, 0, 0, 0]),
        Question::Book(Query::Window { start, end }) => (2, [start, end, 0, 0, 0]),
        Question::Book(Query::Tally { start, end }) => (3, [start, end, 0, 0, 0]),
        Question::Cells(asked) => {
            let marked = i64::from(asked.marked);
            (
                4,
                [asked.start, asked.end, asked.columns, marked, asked.now],
            )
        }
        Question::Class(at) => (5, [at, 0, 0, 0, 0]),
        Question::Count(at) => (6, [at, 0, 0, 0, 0]),
    }
}

fn record(case: &Case) -> Vec<u8> {
    let (entry, query) = numbers(case.question);
    let lengths = [
        case.answer.len(),
        case.book.len(),
        case.room,
        usize::from(case.zeros),
    ];
    let mut made = vec![entry];
    made.extend(i64::from(case.number).to_le_bytes());
    for length in lengths {
        made.extend((length as i64).to_le_bytes());
    }
    for number in query {
        made.extend(number.to_le_bytes());
    }
    if !case.zeros {
        made.extend(case.book);
    }
    made.extend(case.answer);
    made
}

impl List {
    pub fn push(&mut self, case: &Case) {
        self.records.push(record(case));
        self.of_book += 1;
    }

    pub fn next_book(&mut self) {
        self.of_book = 0;
    }

    /// Keeps the case if it has something that the list has too little of. `met` is what this one case counts.
    pub fn offer(&mut self, case: &Case, met: &Counts) {
        let long = case.book.len() > LONG_BOOK && !case.zeros && self.long < LONG_BOOKS;
        let short = case.book.len() <= BOOK && case.answer.len() <= ANSWER;
        let wanted = short && self.of_book < CASES_OF_A_BOOK && self.held.lacks(met, quota);
        let answered_long = long && case.number == 0 && case.answer.len() > 29;
        if case.zeros || answered_long || wanted {
            self.long += usize::from(answered_long);
            self.held.join(met);
            self.push(case);
        }
    }

    /// The same of a window.
    pub fn offer_window(&mut self, case: &Case, met: &Counts) {
        let short = case.book.len() <= BOOK
            && case.answer.len() <= ANSWER_OF_A_WINDOW
            && case.room <= ROOM_OF_A_WINDOW;
        if short && self.of_book < CASES_OF_A_BOOK && self.held.lacks(met, |_| 10) {
            self.held.join(met);
            self.push(case);
        }
    }

    /// The same of a tally.
    pub fn offer_tally(&mut self, case: &Case, met: &Counts) {
        let Question::Book(Query::Tally { start, end }) = case.question else {
            panic!("no tally");
        };
        let longest = case.number == 0 && end - start == tally::LONGEST;
        let long = longest && self.long < LONG_TALLIES;
        let fits = case.book.len() <= BOOK && case.room <= LENT;
        let short = fits && case.answer.len() <= ANSWER;
        let wanted = short && self.of_book < CASES_OF_A_BOOK && self.held.lacks(met, |_| 10);
        if case.zeros || (fits && long) || wanted {
            self.long += usize::from(longest);
            self.held.join(met);
            self.push(case);
        }
    }

    /// Another list's cases behind these.
    pub fn append(&mut self, other: Self) {
        self.records.extend(other.records);
    }

    pub fn cases(&self) -> usize {
        self.records.len()
    }

    pub fn print(&self) {
        self.held.print();
        println!("cases {}", self.cases());
    }

    /// Each record in the first block that has room for it.
    fn blocks(&self) -> Vec<Vec<u8>> {
        let mut blocks: Vec<Vec<u8>> = Vec::new();
        for record in &self.records {
            let fits = |block: &&mut Vec<u8>| block.len() + record.len() <= BLOCK;
            match blocks.iter_mut().find(fits) {
                Some(block) => block.extend(record),
                None => blocks.push(record.clone()),
            }
        }
        blocks
    }

    pub fn write(&self, file: &str) {
        let mut bytes = Vec::new();
        for block in self.blocks() {
            bytes.resize(bytes.len().next_multiple_of(BLOCK), 0);
            bytes.extend(block);
        }
        println!("bytes {}", bytes.len());
        std::fs::write(file, &bytes).expect("the list written");
    }
}
