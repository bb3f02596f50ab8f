//! Texts for the grouping program, proper and damaged. Usage: see run.sh.
//!   texts texts [SEED] [TEXTS]   runs PROGRAM on texts until TEXTS of them (10000) were changed; compares what it prints; the status is 0 if none differs
//!   texts record-texts           writes texts with what must be printed, for the program `test_texts`; the layout stands in crates/test_texts/src/main.rt
//! What must be printed is the unchanged Rust's answer where a plain reading by lines finds the text in the layout, and refusal 11 elsewhere.
use grouping_harness::books::made_up;
use grouping_harness::call::{by_rust, silence};
use grouping_harness::layout::{answer, read, write, Request};
use kmeans_harness::random::Random;
use rand::Source;
use std::collections::BTreeMap;
use std::io::Write;
use std::process::{Command, Stdio};

/// A request: a book of up to 12 names with the draws of a seeded run, now and then too few, too many, or out of range.
fn request(r: &mut Random) -> Request {
    let names = r.one_of(&[0, 1, 2, 2, 2, 3, 3, 4, 5, 6, 7, 12]);
    let repeats = r.one_of(&[1, 1, 1, 1, 1, 1, 2, 3, 0, 64, 65, u32::MAX as usize]);
    let mut cells: Vec<u64> = vec![r.bits(); names * names];
    let mut draws = vec![0; r.below(4)];
    if names > 1 {
        let book = made_up(r, names);
        cells = book.iter().map(|x| x.to_bits()).collect();
        if r.once_in(8) {
            let place = r.below(cells.len());
            cells[place] = 0x7ff0_0000_0000_0000 | r.bits() >> r.from(12, 63) | r.bits() << 63;
        }
        let run = if repeats == 0 || repeats > 3 { 1 } else { repeats };
        draws = by_rust(&book, names, run, Source::Seeded, r.bits()).1.draws;
    }
    draws.truncate(1024);
    match r.below(8) {
        0 => draws.truncate(r.below(draws.len() + 1)),
        1 => draws.resize(r.from(draws.len(), 1024), r.bits() >> 12),
        2 if !draws.is_empty() => {
            let place = r.below(draws.len());
            draws[place] = r.one_of(&[names as u64, 1 << 53, (1 << 53) - 1, 9_999_999_999_999_999_999]);
        }
        _ => (),
    }
    Request { names, repeats, cells, draws }
}

/// A byte that may stand in a text, one that comes near, or any.
fn byte(r: &mut Random) -> u8 {
    let near = b"0019afAFg  \n\n\t\r-+.x,\0";
    if r.once_in(4) {
        r.bits() as u8
    } else {
        near[r.below(near.len())]
    }
}

/// The text with a field of its first line replaced.
fn resized(text: &[u8], field: usize, with: &str) -> Vec<u8> {
    let end = text.iter().position(|&b| b == b'\n').unwrap();
    let line = std::str::from_utf8(&text[..end]).unwrap();
    let mut fields: Vec<&str> = line.split(' ').collect();
    fields[field] = with;
    [fields.join(" ").as_bytes(), &text[end..]].concat()
}

/// The places where a field of the line `line` starts.
fn starts(text: &[u8], line: usize) -> Vec<usize> {
    let mut at = 0;
    let mut places = vec![0];
    for (i, &b) in text.iter().enumerate() {
        if b == b'\n' {
            at += 1;
        }
        if b == b'\n' || b == b' ' {
            places.push(if at == line { i + 1 } else { usize::MAX });
        }
    }
    places.retain(|&p| p != usize::MAX && p < text.len());
    if line > 0 {
        places.remove(0);
    }
    places
}

/// A damage, by its name, or a change that keeps the text in the layout.
fn damaged(r: &mut Random, text: &[u8]) -> (&'static str, Vec<u8>) {
    let mut t = text.to_vec();
    let place = r.below(t.len());
    match r.below(22) {
        0..=3 => return ("as it is", t),
        4 | 5 => {
            t[place] = byte(r);
            return ("a byte changed", t);
        }
        6 => {
            t.remove(place);
            return ("a byte left out", t);
        }
        7 => {
            t.insert(place, byte(r));
            return ("a byte put in", t);
        }
        8 => {
            t.insert(place, t[place]);
            return ("a byte twice", t);
        }
        9 => {
            let other = r.below(t.len());
            t.swap(place, other);
            return ("two bytes exchanged", t);
        }
        10 => {
            t.truncate(place);
            return ("cut", t);
        }
        11 => {
            t.pop();
            return ("no last newline", t);
        }
        12 => {
            t.push(byte(r));
            return ("a byte too many", t);
        }
        13 => {
            let count = r.one_of(&[1, 100, 22_000, 65_536, 200_000]);
            t.extend((0..count).map(|_| b'0'));
            return ("much too long", t);
        }
        14 => return ("names changed", resized(text, 0, r.one_of(&["13", "12", "2", "1", "0", "00", "02", "", "256", "-2", "2.0", "18446744073709551618"]))),
        15 => return ("repeats changed", resized(text, 1, r.one_of(&["4294967296", "4294967295", "0", "01", "1", "65", "", "18446744073709551617", "1e3"]))),
        16 => return ("count of draws changed", resized(text, 2, r.one_of(&["1025", "1024", "3", "0", "03", "", "4294967299", "3 "]))),
        17 => {
            let upper = text.to_ascii_uppercase();
            return ("upper case", upper);
        }
        18 => {
            let text = std::str::from_utf8(text).unwrap();
            return ("lines that end in CRLF", text.replace('\n', "\r\n").into_bytes());
        }
        19 => {
            let at = starts(text, 2);
            if !at.is_empty() {
                let at = at[r.below(at.len())];
                t.splice(at..at, vec![b'0'; r.from(1, 19)]);
            }
            return ("zeros in front of a draw", t);
        }
        20 => {
            let at = starts(text, 1);
            if !at.is_empty() {
                let at = at[r.below(at.len())];
                if r.once_in(2) {
                    t.remove(at);
                } else {
                    t.insert(at, b'0');
                }
            }
            return ("a cell with a digit more or less", t);
        }
        _ => return ("empty", if r.once_in(4) { vec![] } else { vec![b'\n'; r.from(1, 4)] }),
    }
}

/// Requests at and just over the limits, whole but for that: names, repeats, count of draws and their digits. The last is the longest text of
/// the layout.
fn at_limits() -> Vec<Vec<u8>> {
    let mut texts = Vec::new();
    let most = u32::MAX as usize;
    for (names, repeats, draws, digits) in [
        (12, 1, 208, 1),
        (13, 1, 208, 1),
        (2, 1, 1024, 1),
        (2, 1, 1025, 1),
        (2, 1, 3, 19),
        (2, 1, 3, 20),
        (2, most, 3, 1),
        (2, most + 1, 3, 1),
        (12, most, 1024, 19),
    ] {
        let cells = (0..names * names).map(|c| f64::from(u8::from(c / names == c % names)).to_bits()).collect();
        let request = Request { names, repeats, cells, draws: vec![0; draws] };
        let text = String::from_utf8(write(&request)).unwrap();
        let (head, _) = text.trim_end().rsplit_once('\n').unwrap();
        let line = vec!["0".repeat(digits); draws].join(" ");
        texts.push(format!("{head}\n{line}\n").into_bytes());
    }
    texts
}

fn printed(program: &str, text: &[u8]) -> Vec<u8> {
    let mut child = Command::new(program).stdin(Stdio::piped()).stdout(Stdio::piped()).spawn().unwrap();
    // a program that has read enough may be gone before the last byte is written
    let _ = child.stdin.take().unwrap().write_all(text);
    let done = child.wait_with_output().unwrap();
    assert!(done.status.success(), "the program ended with {}", done.status);
    done.stdout
}

fn compare(program: &str, seed: u64, texts: usize) -> bool {
    let mut r = Random::new(seed);
    let mut counts: BTreeMap<&str, [usize; 3]> = BTreeMap::new();
    let mut made = at_limits().into_iter();
    let mut changed = 0;
    while changed < texts {
        let (kind, text) = match made.next() {
            Some(text) => ("at a limit", text),
            None => {
                let text = write(&request(&mut r));
                match damaged(&mut r, &text) {
                    (_, other) if other == text => ("as it is", other),
                    (kind, other) => {
                        changed += 1;
                        (kind, other)
                    }
                }
            }
        };
        let want = answer(&text);
        let found = printed(program, &text);
        let row = counts.entry(kind).or_default();
        row[0] += 1;
        row[1] += usize::from(read(&text).is_some());
        if found != want.as_bytes() {
            row[2] += 1;
            println!("differs: {kind}: {:?} for {want:?} of {:?}", String::from_utf8_lossy(&found), String::from_utf8_lossy(&text));
        }
    }
    println!("{:34} {:>8} {:>14} {:>8}", "", "texts", "in the layout", "differ");
    let mut total = [0; 3];
    for (kind, row) in &counts {
        println!("{kind:34} {:8} {:14} {:8}", row[0], row[1], row[2]);
        for (t, x) in total.iter_mut().zip(row) {
            *t += x;
        }
    }
    println!("{} texts compared, {changed} of them changed, {} in the layout, {} differ", total[0], total[1], total[2]);
    total[2] == 0
}

fn record(out: &mut impl Write, text: &[u8]) {
    let want = answer(text);
    write!(out, "{:016x}\n{:016x}\n", text.len(), want.len()).unwrap();
    out.write_all(text).unwrap();
    out.write_all(want.as_bytes()).unwrap();
}

/// A worked example and damages of each byte of it, the README's example of four names, books of 4 to 12 names, made-up texts while they are
/// short, and texts at the limits.
fn record_texts() {
    let out = &mut std::io::stdout().lock();
    let example = b"2 1 3\n3ff0000000000000 0000000000000000 0000000000000000 3ff0000000000000\n0 0 4503599627370496\n";
    record(out, example);
    for place in 0..example.len() {
        let mut less = example.to_vec();
        less.remove(place);
        record(out, &less);
        for other in [b'0', b'\n', b'A'] {
            let mut changed = example.to_vec();
            changed[place] = other;
            record(out, &changed);
        }
    }
    let pairs = |c: usize| [1.0, 0.875, 0.125][if c / 4 == c % 4 { 0 } else if c / 8 == c % 4 / 2 { 1 } else { 2 }];
    let four = Request { names: 4, repeats: 1, cells: (0..16).map(|c| f64::to_bits(pairs(c))).collect(), draws: vec![0; 10] };
    record(out, &write(&four));
    let mut r = Random::new(11);
    for names in 4..=12 {
        for _ in 0..2 {
            let book = made_up(&mut r, names);
            let draws = by_rust(&book, names, 1, Source::Seeded, r.bits()).1.draws;
            let cells = book.iter().map(|x| x.to_bits()).collect();
            record(out, &write(&Request { names, repeats: 1, cells, draws: draws[..draws.len().min(600)].to_vec() }));
        }
    }
    for _ in 0..250 {
        let text = write(&request(&mut r));
        let (_, text) = damaged(&mut r, &text);
        if text.len() <= 2000 {
            record(out, &text);
        }
    }
    for text in at_limits() {
        record(out, &text);
    }
    record(out, &vec![b'0'; 23_000]);
}

fn main() {
    silence();
    let args: Vec<String> = std::env::args().collect();
    if args[1] == "record-texts" {
        return record_texts();
    }
    let program = std::env::var("PROGRAM").unwrap();
    let number = |i: usize, or: usize| args.get(i).map_or(or, |a| a.parse().unwrap());
    let right = compare(&program, number(2, 7) as u64, number(3, 10_000));
    std::process::exit(if right { 0 } else { 1 });
}
