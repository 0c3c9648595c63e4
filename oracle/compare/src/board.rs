//! The comparison of rows: cells, classes and counts, on rows of real timelines, on made ones, and on damaged ones.

use crate::ask;
use crate::ask_rows;
use crate::drawn::{self, Cells, Counted};
use crate::given::{Query, Venue, judge_window, lend, outside};
use crate::make;
use crate::make_rows::{self, CERTAIN, MARK, Records, WAYS};
use crate::port::{self, Room};
use crate::random::Random;
use crate::row::{self, Row};
use crate::{Asked, Place, book, hex};
use market_time_core::Timeline;
use std::collections::BTreeMap;
use std::process::exit;

/// The least rows, and the least of each thing met, of a long run.
const ROWS: u64 = 200_000;
const LEAST: u64 = 500;

/// What a run met, by name.
#[derive(Default, Clone)]
pub struct Met(BTreeMap<String, u64>);

impl Met {
    pub fn add(&mut self, name: impl Into<String>) {
        *self.0.entry(name.into()).or_default() += 1;
    }

    /// Whether another's names are here less often than wanted.
    pub fn lacks(&self, other: &Self, wanted: fn(&str) -> u64) -> bool {
        let mut names = other.0.keys();
        names.any(|name| self.of(name) < wanted(name))
    }

    pub fn join(&mut self, other: &Self) {
        for (name, count) in &other.0 {
            *self.0.entry(name.clone()).or_default() += count;
        }
    }

    fn of(&self, name: &str) -> u64 {
        self.0.get(name).copied().unwrap_or(0)
    }

    pub fn print(&self) {
        for (name, count) in &self.0 {
            println!("{name} {count}");
        }
    }

    /// What a long run met too seldom.
    fn missing(&self) -> Vec<String> {
        let mut wanted: Vec<String> = Vec::new();
        wanted.extend([0, 10, 11, 12, 14, 15, 16].map(|n| format!("cells number {n}")));
        wanted.extend([0, 10, 15].map(|n| format!("class number {n}")));
        wanted.extend([0, 10, 15].map(|n| format!("count number {n}")));
        wanted.extend((1..=4).map(|class| format!("class {class}")));
        wanted.extend(GLYPHS.chars().map(|glyph| format!("cells with {glyph:?}")));
        wanted.extend(WAYS.map(|way| format!("damage {way}")));
        wanted.push("damage of a mark".to_owned());
        wanted.extend(COLUMNS.map(|(name, _)| format!("columns {name}")));
        wanted.extend(["none", "one short", "exact", "longer"].map(|room| format!("room {room}")));
        wanted.extend(SITUATIONS.map(|name| format!("situation {name}")));
        wanted.extend(["real", "point", "made"].map(|from| format!("rows {from}")));
        let seldom = wanted.into_iter().filter(|name| self.of(name) < LEAST);
        let mut missing: Vec<String> = seldom
            .map(|name| format!("{name}: {}, below {LEAST}", self.of(&name)))
            .collect();
        if self.of("rows") < ROWS {
            missing.push(format!("rows {}, below {ROWS}", self.of("rows")));
        }
        missing
    }
}

/// What cells show.
const GLYPHS: &str = ".-=#:_!? |";

/// Columns by what they are, with the largest of each.
const COLUMNS: [(&str, i64); 10] = [
    ("negative", -1),
    ("0", 0),
    ("1 to 11", 11),
    ("12", 12),
    ("13", 13),
    ("14 to 510", 510),
    ("511", 511),
    ("512", 512),
    ("513", 513),
    ("more", i64::MAX),
];

/// What is easy to miss.
const SITUATIONS: [&str; 17] = [
    "a now inside the window",
    "a now outside the window",
    "no marker, and a now outside the range",
    "a window shorter than its columns",
    "a window longer than 63 bits",
    "a row of zero bytes",
    "a row with an instant outside the range",
    "segments that touch and have one phase",
    "a gap between segments",
    "a row of more than 65,536 bytes",
    "no row",
    "a mark with nothing behind it",
    "row numbers that repeat",
    "row numbers that fall",
    "four rows or more",
    "rows that do not begin with a mark",
    "a row not shown in a count",
];

fn differs(place: Place, bytes: &[u8], told: &[String]) -> ! {
    println!(
        "DIFFERENCE: board --seed {} --from {} --books 1",
        place.seed, place.book
    );
    println!("bytes {}", hex(bytes));
    println!("{}", told.join("\n"));
    exit(1);
}

/// Cells, compared and counted.
pub fn ask_cells(
    place: Place,
    bytes: &[u8],
    asked: &Cells,
    random: &mut Random,
    met: &mut Met,
) -> Asked {
    let answer = drawn::cells(bytes, asked);
    let room = ask::room(random, answer.as_ref().ok().map(Vec::len));
    let (mut theirs, mut ours) = (Room::new(room), Room::new(room));
    let expected = lend(&answer, theirs.bytes_mut());
    let got = port::cells(bytes, asked, &mut ours);
    if expected != got || theirs.bytes() != ours.bytes() || !ours.guarded() {
        let text = |room: &Room| String::from_utf8_lossy(room.bytes()).into_owned();
        let told = [
            format!("{asked:?} room {room}"),
            format!("Rust {expected:?} {:?}", text(&theirs)),
            format!("port {got:?} {:?}", text(&ours)),
            format!("guards untouched {}", ours.guarded()),
        ];
        differs(place, bytes, &told);
    }
    met.add("queries");
    met.add(format!("cells number {}", expected.0));
    if let Ok(drawn) = &answer {
        count_room(room, drawn.len(), met);
    }
    if expected.0 == 0 {
        count_cells(asked, &theirs.bytes()[..expected.1], met);
    }
    let columns = COLUMNS.iter().find(|(_, most)| asked.columns <= *most);
    met.add(format!("columns {}", columns.expect("columns").0));
    Asked {
        number: expected.0,
        answer: theirs.bytes()[..expected.1].to_vec(),
        room,
    }
}

fn count_room(room: usize, length: usize, met: &mut Met) {
    let name = match room {
        0 => "none",
        _ if room + 1 == length => "one short",
        _ if room == length => "exact",
        _ if room < length => "shorter",
        _ => "longer",
    };
    met.add(format!("room {name}"));
}

/// What cells that were drawn show.
fn count_cells(asked: &Cells, drawn: &[u8], met: &mut Met) {
    for glyph in GLYPHS
        .chars()
        .filter(|glyph| drawn.contains(&(*glyph as u8)))
    {
        met.add(format!("cells with {glyph:?}"));
    }
    let span = asked.end.abs_diff(asked.start);
    let inside = asked.start <= asked.now && asked.now < asked.end;
    let situations = [
        asked.marked && inside,
        asked.marked && !inside,
        !asked.marked && outside(asked.now),
        span < drawn.len() as u64 - 2,
        span > i64::MAX as u64,
    ];
    for (name, _) in SITUATIONS.iter().zip(situations).filter(|(_, met)| *met) {
        met.add(format!("situation {name}"));
    }
}

/// A class, compared and counted: the number and the class.
pub fn ask_class(place: Place, bytes: &[u8], at: i64, met: &mut Met) -> (u32, u32) {
    let expected = match drawn::class(bytes, at) {
        Ok(class) => (0, class),
        Err(number) => (number, 0),
    };
    let got = port::class(bytes, at);
    if expected != got {
        let told = [format!("class at {at}: Rust {expected:?}, port {got:?}")];
        differs(place, bytes, &told);
    }
    met.add("queries");
    met.add(format!("class number {}", expected.0));
    if expected.0 == 0 {
        met.add(format!("class {}", expected.1));
    }
    expected
}

/// A count, compared and counted: the number and the counts.
pub fn ask_count(place: Place, bytes: &[u8], at: i64, met: &mut Met) -> (u32, Counted) {
    let expected = match drawn::count(bytes, at) {
        Ok(counted) => (0, counted),
        Err(number) => (number, [0; 4]),
    };
    let got = port::count(bytes, at);
    if expected != got {
        let told = [format!("count at {at}: Rust {expected:?}, port {got:?}")];
        differs(place, bytes, &told);
    }
    met.add("queries");
    met.add(format!("count number {}", expected.0));
    let [venues, trading, not_trading, not_known] = expected.1;
    if venues > trading + not_trading + not_known {
        met.add(format!("situation {}", SITUATIONS[16]));
    }
    expected
}

/// A good row: its records, what it holds, and the Rust's timeline that it is of, if it is of one.
pub struct Made {
    from: &'static str,
    pub records: Records,
    pub held: Row,
    of: Option<Timeline>,
}

/// These records as a row, if they are one: an unknown point is none.
fn made(from: &'static str, records: Records, of: Option<Timeline>) -> Option<Made> {
    let held = row::row(&records.concat())?;
    Some(Made {
        from,
        records,
        held,
        of,
    })
}

/// Rows of the Rust's own timelines and points.
fn real(random: &mut Random, books: &[Vec<u8>]) -> Vec<Made> {
    let mut rows = Vec::new();
    for bytes in books {
        let venue = Venue::open(bytes).expect("an accepted book");
        for (start, end) in ask::windows(random, &venue, 3, false) {
            if judge_window(start, end).is_ok() {
                let answer = venue.answer(&Query::Window { start, end });
                let records = make_rows::split(&answer.expect("a good window"));
                let of = Some(venue.timeline(start, end));
                rows.push(made("real", records, of).expect("a timeline is a good row"));
            }
        }
        let at = ask::instants(random, &venue, 1)[0];
        if let Ok(answer) = venue.answer(&Query::Point { at }) {
            let known = answer[2] == 16;
            let row = made("point", make_rows::split(&answer), None);
            assert_eq!(row.is_some(), known, "a known point is a row, another not");
            rows.extend(row);
        }
    }
    rows
}

/// The good rows of one place of a run.
pub fn rows(random: &mut Random) -> Vec<Made> {
    let books = [make::book(random), make::overlap(random)].map(|records| book::encode(&records));
    let mut rows = real(random, &books);
    for _ in 0..8 {
        let records = make_rows::row(random);
        rows.push(made("made", records, None).expect("made to be good"));
    }
    rows
}

pub fn count_row(row: &Made, met: &mut Met) {
    met.add("rows");
    met.add(format!("rows {}", row.from));
    let pairs = || row.held.windows(2);
    let situations = [
        row.held.is_empty(),
        ask_rows::edges(&row.held).into_iter().any(outside),
        pairs().any(|two| two[0].end == two[1].start && two[0].phase == two[1].phase),
        pairs().any(|two| two[0].end < two[1].start),
        row.records.iter().map(Vec::len).sum::<usize>() > 65_536,
    ];
    for (name, _) in SITUATIONS[5..]
        .iter()
        .zip(situations)
        .filter(|(_, met)| *met)
    {
        met.add(format!("situation {name}"));
    }
}

/// A good row: two queries for cells, two for its class. A real one is also drawn from the Rust's own timeline.
fn ask_good(place: Place, row: &Made, random: &mut Random, met: &mut Met) {
    count_row(row, met);
    let (bytes, edges) = (row.records.concat(), ask_rows::edges(&row.held));
    for _ in 0..2 {
        let asked = ask_rows::cells(random, &edges);
        if let (Some(of), Ok(())) = (&row.of, drawn::judge_cells(&asked)) {
            let read = drawn::timeline(&row.held);
            let same = drawn::render(of, &asked) == drawn::render(&read, &asked);
            assert!(same, "the bytes hold what the board looks at");
        }
        ask_cells(place, &bytes, &asked, random, met);
        ask_class(place, &bytes, ask_rows::instant(random, &edges), met);
    }
}

/// A row damaged in one way that it can be damaged in.
fn damage(random: &mut Random, row: &Made) -> (usize, Vec<u8>) {
    loop {
        let way = random.below(WAYS.len());
        if let Some(bytes) = make_rows::damaged(random, &row.records, way) {
            return (way, bytes);
        }
    }
}

/// A damaged row, which the judge must refuse where the damage is certain.
pub fn damaged(row: &Made, random: &mut Random, met: &mut Met) -> Vec<u8> {
    let (way, bytes) = damage(random, row);
    let good = row::row(&bytes).is_some();
    assert!(!good || way >= CERTAIN, "{}: {}", WAYS[way], hex(&bytes));
    met.add("rows");
    met.add(if good {
        "rows damaged and good"
    } else {
        "rows damaged"
    });
    met.add(format!("damage {}", WAYS[way]));
    bytes
}

fn ask_damaged(place: Place, row: &Made, random: &mut Random, met: &mut Met) {
    let bytes = damaged(row, random, met);
    let edges = ask_rows::edges(&row.held);
    let asked = ask_rows::cells(random, &edges);
    ask_cells(place, &bytes, &asked, random, met);
    ask_class(place, &bytes, ask_rows::instant(random, &edges), met);
}

/// Rows behind marks, the edges of their segments, and how those that are damaged were.
pub struct Marked {
    pub bytes: Vec<u8>,
    pub edges: Vec<i64>,
    pub ways: Vec<&'static str>,
}

/// Marked rows: good ones, few damaged; marks with nothing behind; what stands before the first mark; no rows.
pub fn marked(good: &[Made], random: &mut Random, met: &mut Met) -> Marked {
    let many = random.below(7);
    let mut held: Vec<Vec<u8>> = Vec::new();
    let mut edges = Vec::new();
    let mut ways = Vec::new();
    for _ in 0..many {
        let row = random.pick(good);
        edges.extend(ask_rows::edges(&row.held));
        held.push(match random.below(20) {
            0 => {
                let (way, bytes) = damage(random, row);
                ways.push(WAYS[way]);
                bytes
            }
            1 => make_rows::damaged(random, &row.records, MARK).expect("a mark in a row"),
            2 | 3 => Vec::new(),
            _ => row.records.concat(),
        });
    }
    let numbers = ask_rows::row_numbers(random, many);
    let mut parts = ask_rows::marked(&held, &numbers);
    let bare = !held.is_empty() && random.percent(8);
    if bare {
        parts.remove(0);
    } else if many > 0 && random.percent(4) {
        // A mark cut short, of another length or kind.
        let (place, way) = (2 * random.below(many), random.below(4));
        let mark = vec![parts[place].clone()];
        parts[place] = make_rows::damaged(random, &mark, way).expect("a record");
        met.add("damage of a mark");
    }
    let bytes = parts.concat();
    let two = || numbers.windows(2);
    let situations = [
        bytes.is_empty(),
        held.iter().any(Vec::is_empty),
        two().any(|two| two[0] == two[1]),
        two().any(|two| two[1] < two[0]),
        many >= 4,
        bare && !held[0].is_empty(),
    ];
    for (name, _) in SITUATIONS[10..]
        .iter()
        .zip(situations)
        .filter(|(_, met)| *met)
    {
        met.add(format!("situation {name}"));
    }
    met.add("sets of marked rows");
    Marked { bytes, edges, ways }
}

fn ask_marked(place: Place, good: &[Made], random: &mut Random, met: &mut Met) {
    let rows = marked(good, random, met);
    for _ in 0..2 {
        let at = ask_rows::instant(random, &rows.edges);
        ask_count(place, &rows.bytes, at, met);
    }
}

pub fn run(seed: u64, from: u64, books: u64, long: bool) {
    let mut met = Met::default();
    for book in from..from + books {
        let place = Place { seed, book };
        let mut random = Random::new(seed, book);
        let good = rows(&mut random);
        for row in &good {
            ask_good(place, row, &mut random, &mut met);
            for _ in 0..2 {
                ask_damaged(place, row, &mut random, &mut met);
            }
        }
        for _ in 0..4 {
            ask_marked(place, &good, &mut random, &mut met);
        }
    }
    met.print();
    println!("differences 0");
    let missing = met.missing();
    if long && !missing.is_empty() {
        println!("met too seldom:\n{}", missing.join("\n"));
        exit(1);
    }
}
