//! The grouping program's input and output, read and written line by line, without the proved library.
use crate::call::{expected, Call};

/// What a text says: names, repeats, the bits of the cells, the draws.
pub struct Request {
    pub names: usize,
    pub repeats: usize,
    pub cells: Vec<u64>,
    pub draws: Vec<u64>,
}

/// A decimal number of at most `limit`, with no zero in front.
fn plain(field: &str, limit: u64) -> Option<u64> {
    let digits = field.bytes().all(|b| b.is_ascii_digit());
    if !digits || field.is_empty() || field.len() > 10 || (field.len() > 1 && field.starts_with('0')) {
        return None;
    }
    field.parse().ok().filter(|&x| x <= limit)
}

/// The bits of a cell: 16 hex digits, in lower case.
fn cell(field: &str) -> Option<u64> {
    let digits = field.bytes().all(|b| b.is_ascii_digit() || (b'a'..=b'f').contains(&b));
    if !digits || field.len() != 16 {
        return None;
    }
    u64::from_str_radix(field, 16).ok()
}

/// A draw: 1 to 19 decimal digits.
fn draw(field: &str) -> Option<u64> {
    if !field.bytes().all(|b| b.is_ascii_digit()) || field.is_empty() || field.len() > 19 {
        return None;
    }
    field.parse().ok()
}

/// A line of n fields; an empty list is an empty line.
fn list(line: &str, n: usize, one: fn(&str) -> Option<u64>) -> Option<Vec<u64>> {
    if n == 0 {
        return line.is_empty().then(Vec::new);
    }
    let values: Vec<u64> = line.split(' ').map(one).collect::<Option<_>>()?;
    (values.len() == n).then_some(values)
}

/// What a text says; nothing where it is not in the layout.
pub fn read(text: &[u8]) -> Option<Request> {
    let text = std::str::from_utf8(text).ok()?;
    let lines: Vec<&str> = text.split('\n').collect();
    let [sizes, cells, draws, ""] = lines[..] else { return None };
    let fields: Vec<&str> = sizes.split(' ').collect();
    let [names, repeats, count] = fields[..] else { return None };
    let names = plain(names, 12)? as usize;
    let repeats = plain(repeats, u32::MAX as u64)? as usize;
    let count = plain(count, 1024)? as usize;
    Some(Request { names, repeats, cells: list(cells, names * names, cell)?, draws: list(draws, count, draw)? })
}

/// The text of a request.
pub fn write(request: &Request) -> Vec<u8> {
    let cells: Vec<String> = request.cells.iter().map(|c| format!("{c:016x}")).collect();
    let draws: Vec<String> = request.draws.iter().map(|d| d.to_string()).collect();
    let Request { names, repeats, .. } = request;
    format!("{names} {repeats} {}\n{}\n{}\n", draws.len(), cells.join(" "), draws.join(" ")).into_bytes()
}

/// What the program must print for a text: the unchanged Rust's answer, or a refusal.
pub fn answer(text: &[u8]) -> String {
    let Some(request) = read(text) else { return "refused 11 at 0\n".into() };
    let n = request.names;
    let book = request.cells.iter().map(|&c| f64::from_bits(c)).collect();
    let found = expected(&Call::proper(book, n, request.repeats, request.draws));
    let [number, place, groups, read] = found.told;
    let Some([order, sizes, scores, _]) = found.outputs else { return format!("refused {number} at {place}\n") };
    let mut labels = vec![String::new(); n];
    let mut members = order.iter();
    for (label, &size) in sizes.iter().enumerate() {
        for &name in members.by_ref().take(size as usize) {
            labels[name as usize] = label.to_string();
        }
    }
    let scores: Vec<String> = scores.iter().map(|s| format!("{s:016x}")).collect();
    format!("names {n} groups {groups} draws {read}\n{}\n{}\n", labels.join(" "), scores.join(" "))
}
