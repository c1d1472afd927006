//! A list on standard input, its sheet or its refusal on standard output: what `place` does, over the static library. With the word above
//! first, labels are above the spot only; with a word behind that or alone, which is a number of half units or `free`, the list is placed
//! at that side.
use std::io::{self, Read, Write};

/// No sheet is shorter: a number below this is a refusal.
const SHORTEST: usize = 18;
/// The same at a given side.
const SHORTEST_AT: usize = 15;
/// No sheet is longer.
const LONGEST: usize = 5531;
/// Given as a side: free.
const FREE: u32 = 4294967295;
/// Given as a way: all four corners.
const USUAL: u32 = 1;
/// Given as a way: above the spot only, corners 1 and 2.
const ABOVE: u32 = 2;

extern "C" {
    // callers/lemoncanyon.h has the contracts.
    fn lemoncanyon_sheet(list: *const u8, list_length: usize, way: u32, buffer: *mut u8, buffer_length: usize) -> usize;
    fn lemoncanyon_sheet_at(list: *const u8, list_length: usize, way: u32, side: u32, buffer: *mut u8, buffer_length: usize) -> usize;
}

/// The sheet of a list, placed in a way at the greatest side or at a given one, or the number of its refusal.
fn sheet(list: &[u8], way: u32, side: Option<u32>) -> Result<Vec<u8>, usize> {
    let mut buffer = vec![0; LONGEST];
    let (from, length) = (list.as_ptr(), list.len());
    let (to, room) = (buffer.as_mut_ptr(), buffer.len());
    // A slice is never null, and `buffer` is ours alone.
    let (number, shortest) = match side {
        Some(side) => (unsafe { lemoncanyon_sheet_at(from, length, way, side, to, room) }, SHORTEST_AT),
        None => (unsafe { lemoncanyon_sheet(from, length, way, to, room) }, SHORTEST),
    };
    if number < shortest {
        return Err(number);
    }
    buffer.truncate(number);
    Ok(buffer)
}

/// The side that a word gives; 0, which is refused, where it gives none.
fn side_from(word: String) -> u32 {
    match word.as_str() {
        "free" => FREE,
        digits => digits.parse().ok().filter(|&side| side != FREE).unwrap_or(0),
    }
}

fn main() -> io::Result<()> {
    let mut list = Vec::new();
    io::stdin().read_to_end(&mut list)?;
    let mut out = io::stdout();
    let mut words = std::env::args().skip(1).peekable();
    let way = words.next_if_eq("above").map_or(USUAL, |_| ABOVE);
    match sheet(&list, way, words.next().map(side_from)) {
        Ok(bytes) => out.write_all(&bytes)?,
        Err(number) => writeln!(out, "refused\t{number}")?,
    }
    out.flush()
}
