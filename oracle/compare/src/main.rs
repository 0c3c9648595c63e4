//! Compares the port with the original Rust, through document 01's boundary, on generated inputs.
//!
//!     compare points --seed S --books N [--from I] [--long]
//!     compare windows --seed S --books N [--from I] [--long]
//!     compare tallies --seed S --books N [--from I] [--long]
//!     compare board --seed S --books N [--from I] [--long]
//!     compare plain --seed S --books N [--from I] [--long]
//!     compare listing --seed S --books N [--from I] -- PROGRAM WORDS..
//!     compare places
//!     compare list --seed S --books N FILE
//!     compare zones --seed S --books N
//!
//! The same seed and place make the same book and the same queries: a difference is printed with
//! both, and `--seed S --from I --books 1` asks again. It ends with 1 on the first difference, and
//! under `--long` where something was met too seldom.

mod agree;
mod answer;
mod ask;
mod ask_rows;
mod board;
mod book;
mod count;
mod damage;
mod drawn;
mod given;
mod judge;
mod lacking;
mod list;
mod list_rows;
mod listing;
mod make;
mod make_rows;
mod places;
mod plain;
mod plain_books;
mod port;
mod random;
mod row;
mod row_places;
mod speed;
mod tallies;
mod tally;
mod walk;
mod zones;

use count::{By, Counts, situations};
use given::{Query, Venue, lend};
use list::{Case, List, Question};
use port::Room;
use random::Random;
use std::process::exit;

struct Arguments {
    what: String,
    seed: u64,
    from: u64,
    books: u64,
    long: bool,
    file: Option<String>,
    program: Vec<String>,
}

fn arguments() -> Option<Arguments> {
    let mut words = std::env::args().skip(1);
    let mut made = Arguments {
        what: words.next()?,
        seed: 1,
        from: 0,
        books: 1000,
        long: false,
        file: None,
        program: Vec::new(),
    };
    while let Some(word) = words.next() {
        match word.as_str() {
            "--seed" => made.seed = words.next()?.parse().ok()?,
            "--from" => made.from = words.next()?.parse().ok()?,
            "--books" => made.books = words.next()?.parse().ok()?,
            "--long" => made.long = true,
            "--" => made.program = words.by_ref().collect(),
            _ if word.starts_with("--") => return None,
            _ => made.file = Some(word),
        }
    }
    Some(made)
}

/// Where a query stands in the run, to say so when it differs.
#[derive(Clone, Copy)]
struct Place {
    seed: u64,
    book: u64,
}

fn hex(bytes: &[u8]) -> String {
    bytes.iter().map(|byte| format!("{byte:02x}")).collect()
}

fn tell(who: &str, reply: (u32, usize), room: &[u8]) {
    println!("{who}: number {} length {}", reply.0, reply.1);
    println!("  room {}", hex(room));
    if let Some(answers) = room.get(..reply.1).and_then(answer::decode) {
        for answer in answers {
            println!("  {answer:?}");
        }
    }
}

/// What a query was answered, the same by both.
struct Asked {
    number: u32,
    answer: Vec<u8>,
    room: usize,
}

/// Asks both sides the same and compares number, length and the whole room.
fn compare(
    place: Place,
    book: &[u8],
    opened: &Result<Venue, u32>,
    query: &Query,
    random: &mut Random,
    counts: &mut Counts,
) -> Asked {
    let answer = opened
        .as_ref()
        .map_err(|number| *number)
        .and_then(|venue| venue.answer(query));
    let room = ask::room(random, answer.as_ref().ok().map(Vec::len));
    let (mut theirs, mut ours) = (Room::new(room), Room::new(room));
    let expected = lend(&answer, theirs.bytes_mut());
    let got = port::ask(book, query, &mut ours);
    if expected != got || theirs.bytes() != ours.bytes() || !ours.guarded() {
        println!(
            "DIFFERENCE: --seed {} --from {} --books 1",
            place.seed, place.book
        );
        println!("book {}", hex(book));
        println!("{query:?} room {room}");
        tell("Rust", expected, theirs.bytes());
        tell("port", got, ours.bytes());
        println!(
            "guards {}",
            if ours.guarded() {
                "untouched"
            } else {
                "ALTERED"
            }
        );
        exit(1);
    }
    if let Ok(bytes) = &answer {
        counts.room(room, bytes.len());
    }
    let answer = theirs.bytes()[..expected.1].to_vec();
    counts.reply(expected.0, &answer);
    Asked {
        number: expected.0,
        answer,
        room,
    }
}

/// A point query, compared and counted.
fn point(
    place: Place,
    book: &[u8],
    opened: &Result<Venue, u32>,
    at: i64,
    random: &mut Random,
    counts: &mut Counts,
) -> Asked {
    let asked = compare(place, book, opened, &Query::Point { at }, random, counts);
    counts.points += 1;
    counts.known += u64::from(asked.number == 0 && asked.answer[2] == 16);
    if let (Ok(venue), 0) = (opened, asked.number) {
        counts.met(situations(venue, at));
    }
    asked
}

/// How many queries a book gets: all of its edges, some, or few where the book is large.
fn wanted(random: &mut Random, records: usize) -> usize {
    match records {
        0..60 if random.percent(4) => 2000,
        0..60 => 60,
        _ => 20,
    }
}

/// The books of one place of a run: an accepted one, and damaged ones made from it, each with how many queries it gets.
fn books(random: &mut Random) -> Vec<(Vec<u8>, usize)> {
    let records = make::book(random);
    let whole = book::encode(&records);
    assert_eq!(judge::judge(&whole), 0, "made to be accepted");
    let mut made = vec![(whole, wanted(random, records.len()))];
    if records.len() < 60 {
        for _ in 0..random.below(8) {
            made.push((damage::damaged(random, &records), 2));
        }
    }
    made
}

fn instants(random: &mut Random, opened: &Result<Venue, u32>, wanted: usize) -> Vec<i64> {
    match opened {
        Ok(venue) => ask::instants(random, venue, wanted),
        Err(_) => vec![ask::far(random)],
    }
}

fn run_points(arguments: &Arguments) {
    let mut counts = Counts::default();
    for book in arguments.from..arguments.from + arguments.books {
        let place = Place {
            seed: arguments.seed,
            book,
        };
        let mut random = Random::new(arguments.seed, book);
        for (bytes, wanted) in books(&mut random) {
            let opened = Venue::open(&bytes);
            match &opened {
                Ok(venue) => {
                    counts.add(By::Books, "accepted");
                    counts.shape(venue);
                }
                Err(_) => counts.add(By::Books, "refused"),
            }
            for at in instants(&mut random, &opened, wanted) {
                point(place, &bytes, &opened, at, &mut random, &mut counts);
            }
        }
    }
    counts.print();
    println!("differences 0");
    let missing = counts.missing_of_points();
    if arguments.long && !missing.is_empty() {
        println!("met too seldom:\n{}", missing.join("\n"));
        exit(1);
    }
}

/// A book and the windows that it is asked.
struct Asking {
    bytes: Vec<u8>,
    opened: Result<Venue, u32>,
    windows: Vec<(i64, i64)>,
}

/// The books of one place of a run of windows: as those of points, and one that is made for what windows meet.
fn books_and_windows(random: &mut Random) -> Vec<Asking> {
    let mut made = Vec::new();
    for (bytes, wanted) in books(random) {
        let opened = Venue::open(&bytes);
        let windows = match &opened {
            Ok(venue) => {
                let (wanted, small) = ((wanted / 4).min(15), bytes.len() < 400);
                ask::windows(random, venue, wanted, small)
            }
            Err(_) => vec![(ask::far(random), ask::far(random))],
        };
        made.push(Asking {
            bytes,
            opened,
            windows,
        });
    }
    let years = random.below(7) == 0;
    let records = if years {
        make::years(random)
    } else {
        make::overlap(random)
    };
    let bytes = book::encode(&records);
    assert_eq!(judge::judge(&bytes), 0, "made to be accepted");
    let opened = Venue::open(&bytes);
    let venue = opened.as_ref().expect("an accepted book");
    let mut windows = ask::windows(random, venue, 3, false);
    if years {
        windows.extend(ask::long_windows(random, venue, 2));
    }
    made.push(Asking {
        bytes,
        opened,
        windows,
    });
    made
}

/// A window query, compared and counted.
fn window(
    place: Place,
    book: &[u8],
    opened: &Result<Venue, u32>,
    (start, end): (i64, i64),
    random: &mut Random,
    counts: &mut Counts,
) -> Asked {
    let query = Query::Window { start, end };
    let asked = compare(place, book, opened, &query, random, counts);
    counts.windows += 1;
    if let (Ok(venue), 0) = (opened, asked.number) {
        counts.window(venue, start, end, &asked.answer);
    }
    asked
}

fn run_windows(arguments: &Arguments) {
    let mut counts = Counts::default();
    for book in arguments.from..arguments.from + arguments.books {
        let place = Place {
            seed: arguments.seed,
            book,
        };
        let mut random = Random::new(arguments.seed, book);
        for asking in books_and_windows(&mut random) {
            let Asking {
                bytes,
                opened,
                windows,
            } = &asking;
            match opened {
                Ok(venue) => {
                    counts.add(By::Books, "accepted");
                    counts.shape(venue);
                }
                Err(_) => counts.add(By::Books, "refused"),
            }
            for edges in windows {
                window(place, bytes, opened, *edges, &mut random, &mut counts);
            }
        }
    }
    counts.print();
    println!("differences 0");
    let missing = counts.missing_of_windows();
    if arguments.long && !missing.is_empty() {
        println!("met too seldom:\n{}", missing.join("\n"));
        exit(1);
    }
}

/// Writes the list that crates/replay asks again.
fn run_list(arguments: &Arguments, file: &str) {
    let mut list = List::default();
    let offer = |list: &mut List,
                 place,
                 book: &[u8],
                 zeros,
                 opened: &Result<Venue, u32>,
                 at,
                 random: &mut Random| {
        let mut counts = Counts::default();
        let asked = point(place, book, opened, at, random, &mut counts);
        let Asked {
            number,
            answer,
            room,
        } = &asked;
        list.offer(
            &Case {
                book,
                zeros,
                question: Question::Book(Query::Point { at }),
                room: *room,
                number: *number,
                answer,
            },
            &counts,
        );
    };
    for book in arguments.from..arguments.from + arguments.books {
        let place = Place {
            seed: arguments.seed,
            book,
        };
        let mut random = Random::new(arguments.seed, book);
        for (bytes, wanted) in books(&mut random) {
            let opened = Venue::open(&bytes);
            list.next_book();
            for at in instants(&mut random, &opened, wanted) {
                offer(&mut list, place, &bytes, false, &opened, at, &mut random);
            }
        }
        // Too long for a block of the list: books of zeros, one byte too long and more.
        if book - arguments.from < 16 {
            let zeros = vec![0; judge::LONGEST + 1 + random.below(2) * random.below(30_000)];
            offer(
                &mut list,
                place,
                &zeros,
                true,
                &Venue::open(&zeros),
                ask::far(&mut random),
                &mut random,
            );
        }
    }
    list.print();
    let windows = list_of_windows(arguments);
    windows.print();
    list.append(windows);
    let places = |most| arguments.from..arguments.from + arguments.books.min(most);
    let tallies = tallies::list(arguments.seed, places(600));
    tallies.print();
    list.append(tallies);
    list.append(list_rows::list(arguments.seed, places(1000)));
    list.write(file);
}

/// The windows of the list: of as many books as give each situation its share.
fn list_of_windows(arguments: &Arguments) -> List {
    let mut list = List::default();
    for book in arguments.from..arguments.from + arguments.books.min(600) {
        let place = Place {
            seed: arguments.seed,
            book,
        };
        let mut random = Random::new(arguments.seed, book);
        for asking in books_and_windows(&mut random) {
            let Asking {
                bytes,
                opened,
                windows,
            } = &asking;
            list.next_book();
            for &(start, end) in windows {
                let mut counts = Counts::default();
                let asked = window(place, bytes, opened, (start, end), &mut random, &mut counts);
                list.offer_window(
                    &Case {
                        book: bytes,
                        zeros: false,
                        question: Question::Book(Query::Window { start, end }),
                        room: asked.room,
                        number: asked.number,
                        answer: &asked.answer,
                    },
                    &counts,
                );
            }
        }
    }
    list
}

fn main() {
    let Some(arguments) = arguments() else {
        eprintln!(
            "usage: compare points|speed|windows|tallies|board|plain|listing|places|list|zones [--seed S] [--from I] [--books N] [--long] [FILE] [-- PROGRAM ..]"
        );
        exit(2);
    };
    match arguments.what.as_str() {
        "points" => run_points(&arguments),
        "windows" => run_windows(&arguments),
        "listing" if !arguments.program.is_empty() => listing::run(
            arguments.seed,
            arguments.from,
            arguments.books,
            &arguments.program,
        ),
        "places" => places::run(),
        "tallies" => tallies::run(
            arguments.seed,
            arguments.from,
            arguments.books,
            arguments.long,
        ),
        "board" => board::run(
            arguments.seed,
            arguments.from,
            arguments.books,
            arguments.long,
        ),
        "plain" => agree::run(
            arguments.seed,
            arguments.from,
            arguments.books,
            arguments.long,
        ),
        "list" => run_list(&arguments, arguments.file.as_deref().unwrap_or("list")),
        "speed" => speed::run(),
        "zones" => zones::run(arguments.seed, arguments.books),
        other => {
            eprintln!("compare: {other}?");
            exit(2);
        }
    }
}
