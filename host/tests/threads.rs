//! Nothing is kept between calls: any thread may call, and gets what it would get alone.

mod common;

use common::{at, book_a, change, event, from_to, year};
use market_time_host::{Room, Rows, class, count};

/// All that the entries say of a book, in words.
fn told(book: &[u8]) -> Vec<String> {
    let mut room = Room::new();
    let mut said = Vec::new();
    for hour in 0..36 {
        said.push(format!("{:?}", room.point(book, at(3_600 * hour))));
    }
    let window = from_to(-86_400, 129_600);
    said.push(format!("{:?}", room.tally(book, window).map(|t| t.whole())));
    let row = room
        .window(book, window)
        .map(|row| row.bytes().to_vec())
        .expect("a timeline");
    said.push(format!("{row:?}"));
    said.push(format!("{:?}", room.cells(&row, window, 80, Some(at(0)))));
    let mut rows = Rows::new();
    rows.push(1, market_time_host::Row::judged(&row).expect("a good row"));
    for hour in 0..36 {
        said.push(format!("{:?}", class(&row, at(3_600 * hour))));
        said.push(format!("{:?}", count(rows.bytes(), at(3_600 * hour))));
    }
    said
}

#[test]
fn every_thread_gets_what_it_would_get_alone() {
    let with_events = [book_a(), event(7, 9, &[0, 32_400, 86_399])].concat();
    let with_a_change = [
        year(),
        change(1_767_600_000, 3_600),
        book_a()[24..].to_vec(),
    ]
    .concat();
    let books = [book_a(), with_events, with_a_change, Vec::new()];
    let alone: Vec<_> = books.iter().map(|book| told(book)).collect();
    std::thread::scope(|scope| {
        for thread in 0..8 {
            let (books, alone) = (&books, &alone);
            scope.spawn(move || {
                for turn in 0..50 {
                    let place = (thread + turn) % books.len();
                    assert_eq!(told(&books[place]), alone[place], "book {place}");
                }
            });
        }
    });
}
