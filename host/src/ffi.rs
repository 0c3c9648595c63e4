//! The C functions of libmarket_time.a, and a call of each on slices. Nothing else in this crate is unsafe.
//!
//! include/market_time.h says the same to C. No function has a precondition but that its pointers are good for their
//! lengths and that `out` overlaps nothing; a `&[u8]` and a `&mut [u8]` are so.

const _: () = assert!(size_of::<usize>() == 8, "a length has 64 bits");

/// Where `number` is not 0 every other field of a reply is 0.
#[repr(C)]
pub struct Reply {
    pub number: u32,
    pub length: usize,
}

#[repr(C)]
pub struct ClassReply {
    pub number: u32,
    pub shown: u32,
}

#[repr(C)]
#[derive(Default)]
pub struct CountReply {
    pub number: u32,
    pub venues: u64,
    pub trading: u64,
    pub not_trading: u64,
    pub not_known: u64,
}

unsafe extern "C" {
    fn market_time_point(
        book: *const u8,
        book_len: usize,
        at: i64,
        out: *mut u8,
        out_len: usize,
    ) -> Reply;
    fn market_time_window(
        book: *const u8,
        book_len: usize,
        start: i64,
        end: i64,
        out: *mut u8,
        out_len: usize,
    ) -> Reply;
    fn market_time_tally(
        book: *const u8,
        book_len: usize,
        start: i64,
        end: i64,
        out: *mut u8,
        out_len: usize,
    ) -> Reply;
    fn market_time_cells(
        row: *const u8,
        row_len: usize,
        start: i64,
        end: i64,
        columns: i64,
        marked: bool,
        now: i64,
        out: *mut u8,
        out_len: usize,
    ) -> Reply;
    fn market_time_class(row: *const u8, row_len: usize, at: i64) -> ClassReply;
    #[cfg(target_arch = "x86_64")]
    fn market_time_count(rows: *const u8, rows_len: usize, at: i64) -> CountReply;
    // Off x86-64 the result, which has more than 16 bytes, comes through a pointer that is the first argument.
    #[cfg(not(target_arch = "x86_64"))]
    fn market_time_count(reply: *mut CountReply, rows: *const u8, rows_len: usize, at: i64);
}

pub fn point(book: &[u8], at: i64, out: &mut [u8]) -> Reply {
    // SAFETY: both slices are good for their lengths and do not overlap.
    unsafe { market_time_point(book.as_ptr(), book.len(), at, out.as_mut_ptr(), out.len()) }
}

pub fn window(book: &[u8], start: i64, end: i64, out: &mut [u8]) -> Reply {
    let (bytes, room) = (book.as_ptr(), out.as_mut_ptr());
    // SAFETY: both slices are good for their lengths and do not overlap.
    unsafe { market_time_window(bytes, book.len(), start, end, room, out.len()) }
}

pub fn tally(book: &[u8], start: i64, end: i64, out: &mut [u8]) -> Reply {
    let (bytes, room) = (book.as_ptr(), out.as_mut_ptr());
    // SAFETY: both slices are good for their lengths and do not overlap.
    unsafe { market_time_tally(bytes, book.len(), start, end, room, out.len()) }
}

pub fn cells(
    row: &[u8],
    start: i64,
    end: i64,
    columns: i64,
    marked: bool,
    now: i64,
    out: &mut [u8],
) -> Reply {
    let (bytes, room) = (row.as_ptr(), out.as_mut_ptr());
    // SAFETY: both slices are good for their lengths and do not overlap.
    unsafe {
        market_time_cells(
            bytes,
            row.len(),
            start,
            end,
            columns,
            marked,
            now,
            room,
            out.len(),
        )
    }
}

pub fn class(row: &[u8], at: i64) -> ClassReply {
    // SAFETY: the slice is good for its length.
    unsafe { market_time_class(row.as_ptr(), row.len(), at) }
}

#[cfg(target_arch = "x86_64")]
pub fn count(rows: &[u8], at: i64) -> CountReply {
    // SAFETY: the slice is good for its length.
    unsafe { market_time_count(rows.as_ptr(), rows.len(), at) }
}

#[cfg(not(target_arch = "x86_64"))]
pub fn count(rows: &[u8], at: i64) -> CountReply {
    let mut reply = CountReply::default();
    // SAFETY: the slice is good for its length, and the reply is one.
    unsafe { market_time_count(&mut reply, rows.as_ptr(), rows.len(), at) };
    reply
}
