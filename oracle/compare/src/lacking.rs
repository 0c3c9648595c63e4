//! For each part of being plain that matters, a smallest window that lacks it and nothing else, with an instant where
//! timeline and point answer part: both sides are asked, and `plain` must find that part lacking and no other.
//! docs/DIFFERENCES.md has them, and says why the other parts do not matter.

use crate::agree::{Port, check_at};
use crate::book::{self, Record};
use crate::given::Query;
use crate::places::{DAY, Doubtful, HOUR, at, change, closed, covering, expect, head, weekly};
use crate::plain::{BEFORE_POINTS, BETWEEN, LONG, Lacks, PARTS, READS, Venue};
use crate::port::Room;
use std::process::exit;

struct Case {
    name: &'static str,
    lacks: Lacks,
    book: Vec<Record>,
    /// Nanoseconds, as the instant.
    window: (i64, i64),
    at: i64,
    /// What the window and the point have to tell.
    shows: &'static [&'static str],
    says: &'static [&'static str],
}

/// Clocks go forward 2 s at 23:59:58 of Monday, which skips its last point; 23:59:59 is put 1 s behind Tuesday's midnight.
fn late_point(coverage: Record, mask: u8, points: &[(i64, u8)]) -> Vec<Record> {
    let rule = Record::Rule(weekly(mask, points));
    vec![coverage, change(DAY - 2, 2), rule]
}

const MONDAYS: &[(i64, u8)] = &[(0, 0), (DAY - 1, 3)];
const EVERY_DATE: &[(i64, u8)] = &[(0, 0), (12 * HOUR, 3), (DAY - 1, 0)];

fn cases() -> Vec<Case> {
    let midnight = at(DAY - 2);
    vec![
        Case {
            name: "every instant reads its date: a gap over midnight",
            lacks: READS,
            book: vec![head(0), change(-1, 2), closed()],
            window: (at(-1), at(-1) + 1),
            at: at(-1),
            shows: &["number 0 length 0"],
            says: &[
                "number 0 length 105",
                "P -86400..0 phase 0 code 0 label 0 evidence 1 from -86400 tag 0 to 0 tag 5(0,-2) whole 5(0,-2) events 0",
            ],
        },
        Case {
            name: "every instant reads its date: a fold over midnight",
            lacks: READS,
            book: vec![head(0), change(1, -2), closed()],
            window: (at(1), at(1) + 1),
            at: at(1),
            shows: &["number 0 length 0"],
            says: &[
                "number 0 length 105",
                "P 0..86402 phase 0 code 0 label 0 evidence 1 from 0 tag 4(0,2) to 86402 tag 0 whole 4(0,2) events 0",
            ],
        },
        Case {
            name: "points between the midnights: a segment on a date without a rule",
            lacks: BETWEEN,
            book: late_point(head(0), 1, MONDAYS),
            window: (midnight - 1, midnight + 1),
            at: midnight,
            shows: &[
                "number 0 length 105",
                "P 86398-1ns..86398+1ns phase 0 code 0 label 0 evidence 1 from 0 tag 0 to 86399 tag 5(86399,86397) whole 5(86399,86397) events 0",
            ],
            says: &[
                "number 0 length 105",
                "P 0..86399 phase 0 code 0 label 0 evidence 1 from 0 tag 0 to 86399 tag 5(86399,86397) whole 5(86399,86397) events 0",
            ],
        },
        Case {
            name: "points between the midnights: coverage begins with the next date",
            lacks: BETWEEN,
            book: late_point(covering(DAY - 2, 20 * DAY, 0), 127, EVERY_DATE),
            window: (midnight - 1, midnight + 1),
            at: midnight,
            shows: &[
                "number 0 length 142",
                "U 86398-1ns..86398 coverage 1",
                "P 86398..86398+1ns phase 0 code 0 label 0 evidence 1 from 86398 tag 0 to 129598 tag 0 whole 0 events 0",
            ],
            says: &[
                "number 0 length 105",
                "P 43200..86399 phase 3 code 0 label 0 evidence 1 from 43200 tag 0 to 86399 tag 5(86399,86397) whole 5(86399,86397) events 0",
            ],
        },
        Case {
            name: "the date before: nothing, and a known point",
            lacks: BEFORE_POINTS,
            book: late_point(head(0), 1, MONDAYS),
            window: (midnight, midnight + 1),
            at: midnight,
            shows: &["number 0 length 0"],
            says: &[
                "number 0 length 105",
                "P 0..86399 phase 0 code 0 label 0 evidence 1 from 0 tag 0 to 86399 tag 5(86399,86397) whole 5(86399,86397) events 0",
            ],
        },
        Case {
            name: "the date before: two phases",
            lacks: BEFORE_POINTS,
            book: late_point(head(0), 127, EVERY_DATE),
            window: (midnight, midnight + 1),
            at: midnight,
            shows: &[
                "number 0 length 105",
                "P 86398..86398+1ns phase 0 code 0 label 0 evidence 1 from 86398 tag 0 to 129598 tag 0 whole 0 events 0",
            ],
            says: &[
                "number 0 length 105",
                "P 43200..86399 phase 3 code 0 label 0 evidence 1 from 43200 tag 0 to 86399 tag 5(86399,86397) whole 5(86399,86397) events 0",
            ],
        },
        Case {
            name: "at most 3,660 dates: one more, the first and the last with 1 ns",
            lacks: LONG,
            book: vec![covering(0, 3_662 * DAY, 0), closed()],
            window: (at(DAY) - 1, at(3_660 * DAY) + 1),
            at: at(3_660 * DAY),
            shows: &[
                "number 0 length 105",
                "P 86400-1ns..316224000 phase 0 code 0 label 0 evidence 1 from 0 tag 0 to 316224000 tag 0 whole 0 events 0",
            ],
            says: &[
                "number 0 length 105",
                "P 316224000..316310400 phase 0 code 0 label 0 evidence 1 from 316224000 tag 0 to 316310400 tag 0 whole 0 events 0",
            ],
        },
    ]
}

fn asked(case: &Case, query: Query, expected: &'static [&'static str]) -> Doubtful {
    Doubtful {
        name: case.name,
        book: case.book.clone(),
        query,
        room: None,
        expected,
    }
}

/// Asks every case of both sides, and of `plain` and the sentence; the first that is not as said ends the run with 1.
pub fn run(room: &mut Room) {
    let cases = cases();
    for case in &cases {
        let ((start, end), at) = (case.window, case.at);
        expect(&asked(case, Query::Window { start, end }, case.shows));
        expect(&asked(case, Query::Point { at }, case.says));
        let mut venue = Venue::of(&case.book).expect("a book with coverage");
        let run = venue.window(start, end).expect("midnights that enclose it");
        let bytes = book::encode(&case.book);
        let parts = check_at(&venue, &mut Port::new(&bytes, room), case.window, at);
        if run.lacks != case.lacks || parts.is_none() {
            let part = PARTS[case.lacks.trailing_zeros() as usize];
            println!(
                "DIFFERENCE: {} does not lack {part} alone, or agrees\n{run:?}",
                case.name
            );
            exit(1);
        }
    }
    println!("cases {}", cases.len());
}
