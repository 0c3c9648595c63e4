// The same boundary from Rust: an empty book, a bad one, and a room that is too small.
#[repr(C)]
struct Reply {
    number: u32,
    length: usize,
}

extern "C" {
    fn market_time_point(book: *const u8, book_len: usize, at: i64, out: *mut u8, out_len: usize) -> Reply;
}

fn ask(book: &[u8], at: i64, out: &mut [u8]) -> (u32, usize) {
    let r = unsafe { market_time_point(book.as_ptr(), book.len(), at, out.as_mut_ptr(), out.len()) };
    (r.number, r.length)
}

fn main() {
    let mut out = [0xa5u8; 64];
    assert_eq!(ask(&[], 0, &mut out), (0, 29));
    assert_eq!(&out[..4], &[27, 0, 19, 0]);
    assert!(out[29..].iter().all(|b| *b == 0xa5));
    let mut out = [0xa5u8; 64];
    assert_eq!(ask(&[], 0, &mut out[..28]), (16, 0));
    assert_eq!(ask(&[22, 0, 1], 0, &mut out), (2, 0));
    assert_eq!(ask(&[], i64::MIN, &mut out), (10, 0));
    assert_eq!(ask(&[0; 65_537], i64::MIN, &mut out), (1, 0));
    assert!(out.iter().all(|b| *b == 0xa5));
    println!("point from Rust: as expected");
}
