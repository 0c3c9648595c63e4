//! Little-endian fields of records. A record is a 2-byte length of what follows, a 2-byte kind and a body.

/// The field of N bytes at a place. Panics if it is not there, which no answer and no accepted book lets happen.
fn field<const N: usize>(record: &[u8], at: usize) -> [u8; N] {
    record[at..at + N].try_into().expect("N bytes")
}

pub fn u16_at(record: &[u8], at: usize) -> u16 {
    u16::from_le_bytes(field(record, at))
}

pub fn u32_at(record: &[u8], at: usize) -> u32 {
    u32::from_le_bytes(field(record, at))
}

pub fn u64_at(record: &[u8], at: usize) -> u64 {
    u64::from_le_bytes(field(record, at))
}

pub fn i32_at(record: &[u8], at: usize) -> i32 {
    i32::from_le_bytes(field(record, at))
}

pub fn i64_at(record: &[u8], at: usize) -> i64 {
    i64::from_le_bytes(field(record, at))
}

pub fn kind(record: &[u8]) -> u16 {
    u16_at(record, 2)
}

/// Takes the first record off the bytes; none where there are no bytes.
pub fn take<'a>(rest: &mut &'a [u8]) -> Option<&'a [u8]> {
    if rest.is_empty() {
        return None;
    }
    let (record, behind) = rest.split_at(usize::from(u16_at(rest, 0)) + 2);
    *rest = behind;
    Some(record)
}
