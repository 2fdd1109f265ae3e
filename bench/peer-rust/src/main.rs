//! What the Rust crates `csv` and `memchr` do on this machine.
//!
//!     rustcsv count FILE    read all records
//!     rustcsv typed FILE    detect column types on 20,480 records, then fill typed columns
//!     rustcsv lf FILE       read the file into memory and count its LF bytes
//!     rustcsv quotes FILE   the same for LF, comma and quote bytes (memchr3)
//!     rustcsv masks FILE    the same, 64 bytes at a time: LF, comma and quote masks, quoted runs by
//!                           prefix XOR, LF bytes outside quotes counted (SSE2: a scan's limit)
//!     rustcsv read FILE     read the file into memory
//!     rustcsv memcpy FILE   the same, and copy it once
//!
//! Each prints the number of records (or bytes counted).
use std::{env, fs, str};

#[derive(Clone, Copy, PartialEq)]
enum Type { Boolean, Bigint, Date, Time, Timestamp, Varchar }
use Type::*;

/// One column: values of eight bytes, or texts end to end with their ends, and null flags.
#[derive(Default)]
struct Column { values: Vec<i64>, bytes: Vec<u8>, ends: Vec<usize>, null: Vec<bool> }

fn number(b: &[u8]) -> Option<i64> {
    if b.is_empty() { return None; }
    b.iter().try_fold(0i64, |n, &c| if c.is_ascii_digit() { Some(n * 10 + (c - b'0') as i64) } else { None })
}

fn date(b: &[u8]) -> Option<i64> {
    if b.len() != 10 || b[4] != b'-' || b[7] != b'-' { return None; }
    let (y, m, d) = (number(&b[..4])?, number(&b[5..7])?, number(&b[8..])?);
    let leap = y % 4 == 0 && (y % 100 != 0 || y % 400 == 0);
    let last = match m { 2 => 28 + leap as i64, 4 | 6 | 9 | 11 => 30, 1..=12 => 31, _ => 0 };
    if y < 1 || d < 1 || d > last { return None; }
    let (y, shifted) = if m > 2 { (y, m - 3) } else { (y - 1, m + 9) };
    Some(y * 365 + y / 4 - y / 100 + y / 400 + (shifted * 153 + 2) / 5 + d - 1 - 719468)
}

fn time(b: &[u8]) -> Option<i64> {
    if b.len() < 8 || b[2] != b':' || b[5] != b':' { return None; }
    let (h, m, s) = (number(&b[..2])?, number(&b[3..5])?, number(&b[6..8])?);
    if h > 23 || m > 59 || s > 59 { return None; }
    let part = match b.len() {
        8 => 0,
        n @ 10..=15 if b[8] == b'.' => number(&b[9..])? * 10i64.pow(15 - n as u32),
        _ => return None,
    };
    Some(((h * 60 + m) * 60 + s) * 1_000_000 + part)
}

fn cast(b: &[u8], ty: Type) -> Option<i64> {
    match ty {
        Boolean if b.eq_ignore_ascii_case(b"true") => Some(1),
        Boolean if b.eq_ignore_ascii_case(b"false") => Some(0),
        Boolean => None,
        Bigint => str::from_utf8(b).ok()?.parse().ok(),
        Date => date(b),
        Time => time(b),
        Timestamp if b.len() == 10 => date(b).map(|d| d * 86_400_000_000),
        Timestamp if b.len() > 18 && (b[10] == b' ' || b[10] == b'T') =>
            Some(date(&b[..10])? * 86_400_000_000 + time(&b[11..])?),
        _ => None,
    }
}

fn reader(file: &str) -> csv::Reader<fs::File> {
    csv::ReaderBuilder::new().buffer_capacity(1 << 20).from_path(file).unwrap()
}

fn typed(file: &str) -> usize {
    let order = [Boolean, Bigint, Date, Time, Timestamp, Varchar];
    let mut places = Vec::new();
    let mut record = csv::ByteRecord::new();
    let mut sample = reader(file);
    for _ in 0..20_480 {
        if !sample.read_byte_record(&mut record).unwrap() { break; }
        places.resize(record.len(), 0);
        for (place, field) in places.iter_mut().zip(record.iter()) {
            while !field.is_empty() && order[*place] != Varchar && cast(field, order[*place]).is_none() { *place += 1; }
        }
    }
    let types: Vec<Type> = places.iter().map(|&p| order[p]).collect();
    let mut columns: Vec<Column> = types.iter().map(|_| Column::default()).collect();
    let mut rows = reader(file);
    let mut count = 0;
    while rows.read_byte_record(&mut record).unwrap() {
        str::from_utf8(record.as_slice()).expect("UTF-8");
        for ((column, &ty), field) in columns.iter_mut().zip(&types).zip(record.iter()) {
            column.null.push(field.is_empty());
            if ty == Varchar {
                column.bytes.extend_from_slice(field);
                column.ends.push(column.bytes.len());
            } else {
                column.values.push(if field.is_empty() { 0 } else { cast(field, ty).expect("cast") });
            }
        }
        count += 1;
    }
    std::hint::black_box(&columns);
    count
}

/// The bytes of a block that equal `byte`, as bits.
#[inline(always)]
fn equal(block: &[u8], byte: u8) -> u64 {
    use std::arch::x86_64::*;
    let mut mask = 0;
    for i in 0..4 {
        let lanes = unsafe { _mm_loadu_si128(block[16 * i..16 * i + 16].as_ptr().cast()) };
        let same = unsafe { _mm_movemask_epi8(_mm_cmpeq_epi8(lanes, _mm_set1_epi8(byte as i8))) };
        mask |= (same as u32 as u64) << (16 * i);
    }
    mask
}

fn masks(bytes: &[u8]) -> usize {
    let (mut quoted, mut line_ends, mut fields) = (0u64, 0, 0);
    for block in bytes.chunks_exact(64) {
        let mut inside = equal(block, b'"');
        for shift in [1, 2, 4, 8, 16, 32] { inside ^= inside << shift; }
        inside ^= quoted;
        quoted = ((inside as i64) >> 63) as u64;
        line_ends += (equal(block, b'\n') & !inside).count_ones() as usize;
        fields += (equal(block, b',') & !inside).count_ones() as usize;
    }
    std::hint::black_box(fields);
    line_ends
}

fn main() {
    let words: Vec<String> = env::args().collect();
    let file = &words[2];
    let count = match words[1].as_str() {
        "count" => {
            let mut rows = reader(file);
            let mut record = csv::ByteRecord::new();
            let mut count = 0;
            while rows.read_byte_record(&mut record).unwrap() { count += 1; }
            count
        }
        "typed" => typed(file),
        "lf" => memchr::memchr_iter(b'\n', &fs::read(file).unwrap()).count(),
        "quotes" => memchr::memchr3_iter(b'\n', b',', b'"', &fs::read(file).unwrap()).count(),
        "masks" => masks(&fs::read(file).unwrap()),
        "read" => std::hint::black_box(fs::read(file).unwrap()).len(),
        "memcpy" => { let bytes = fs::read(file).unwrap(); std::hint::black_box(bytes.clone()).len() }
        _ => panic!("see the head of this file"),
    };
    println!("{count}");
}
