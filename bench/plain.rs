//! The yardstick of bench/fence: `plain fence SECTIONS POINTS WORK [CUT]...` over Rust's std alone. It makes the
//! same checks of the same files as gridclear, in the same order, and prints the same fence and fault lines.

use std::collections::{HashMap, HashSet};
use std::fs::File;
use std::io::{self, Read, Write};

const MOST_BYTES: u64 = 4_194_304;
const MOST_SECTIONS: usize = 5_000;
const MOST_POINTS: usize = 10_000;

type Fault = String;

struct Section {
    name: String,
    #[allow(dead_code)]
    source: bool,
}

#[allow(dead_code)]
struct Point {
    name: String,
    ends: [String; 2],
    lockable: bool,
    remote: bool,
    closed: bool,
}

fn read_file(path: &str) -> Result<Vec<u8>, &'static str> {
    let mut bytes = Vec::new();
    let file = File::open(path).map_err(|_| "ReadFailed")?;
    file.take(MOST_BYTES + 1)
        .read_to_end(&mut bytes)
        .map_err(|_| "ReadFailed")?;
    if bytes.len() as u64 > MOST_BYTES {
        return Err("TooLong");
    }
    Ok(bytes)
}

/// Reads the records of a CSV text one by one: fields in quotes may hold commas, line ends and doubled quotes;
/// empty lines are no records.
struct Records<'a> {
    bytes: &'a [u8],
    place: usize,
}

impl<'a> Records<'a> {
    fn new(bytes: &'a [u8]) -> Records<'a> {
        let bytes = bytes.strip_prefix(b"\xEF\xBB\xBF").unwrap_or(bytes);
        Records { bytes, place: 0 }
    }
}

impl Iterator for Records<'_> {
    type Item = Vec<Vec<u8>>;

    fn next(&mut self) -> Option<Vec<Vec<u8>>> {
        let mut record = Vec::new();
        let mut field = Vec::new();
        let (mut begun, mut quoted) = (false, false);
        while let Some(&byte) = self.bytes.get(self.place) {
            self.place += 1;
            match byte {
                b'"' if quoted && self.bytes.get(self.place) == Some(&b'"') => {
                    field.push(b'"');
                    self.place += 1;
                }
                b'"' if quoted => quoted = false,
                _ if quoted => field.push(byte),
                b'"' if field.is_empty() => (begun, quoted) = (true, true),
                b',' => {
                    record.push(std::mem::take(&mut field));
                    begun = true;
                }
                b'\r' | b'\n' if begun || !field.is_empty() => {
                    record.push(field);
                    return Some(record);
                }
                b'\r' | b'\n' => {}
                _ => field.push(byte),
            }
        }
        if !begun && field.is_empty() {
            return None;
        }
        record.push(field);
        Some(record)
    }
}

fn check_name(text: &str) -> Result<(), String> {
    match text.bytes().position(|b| !matches!(b, b'A'..=b'Z' | b'0'..=b'9' | b'-')) {
        _ if text.is_empty() => Err("Empty".into()),
        _ if text.len() > 24 => Err("TooLong".into()),
        Some(place) => Err(format!("BadByte place {place}")),
        None => Ok(()),
    }
}

/// The fields of one row, read from the left.
struct Fields {
    row: usize,
    column: usize,
    texts: std::vec::IntoIter<Vec<u8>>,
}

impl Fields {
    fn text(&mut self) -> String {
        self.column += 1;
        let text = self.texts.next().expect("the fields were counted");
        String::from_utf8(text).expect("the row is text")
    }

    fn name(&mut self) -> Result<String, String> {
        let name = self.text();
        match check_name(&name) {
            Ok(()) => Ok(name),
            Err(_) => Err(format!("BadName row {} column {}", self.row, self.column)),
        }
    }

    fn word(&mut self, no: &str, yes: &str) -> Result<bool, String> {
        match self.text() {
            text if text == yes => Ok(true),
            text if text == no => Ok(false),
            _ => Err(format!("BadWord row {} column {}", self.row, self.column)),
        }
    }
}

fn read_rows<T>(
    path: &str,
    header: &[&str],
    read_row: fn(&mut Fields) -> Result<T, String>,
) -> Result<Vec<T>, String> {
    let bytes = read_file(path)?;
    let mut records = Records::new(&bytes);
    if !records.next().is_some_and(|first| first.iter().eq(header.iter().map(|t| t.as_bytes()))) {
        return Err("Header".into());
    }
    let mut rows = Vec::new();
    for (place, record) in records.enumerate() {
        let row = place + 1;
        if record.iter().any(|field| std::str::from_utf8(field).is_err()) {
            return Err(format!("NotText row {row}"));
        }
        if record.len() != header.len() {
            return Err(format!("FieldCount row {row}"));
        }
        let mut fields = Fields { row, column: 0, texts: record.into_iter() };
        rows.push(read_row(&mut fields)?);
    }
    Ok(rows)
}

fn read_sections(path: &str) -> Result<Vec<Section>, String> {
    read_rows(path, &["section", "source"], |fields| {
        Ok(Section { name: fields.name()?, source: fields.word("no", "yes")? })
    })
}

fn read_points(path: &str) -> Result<Vec<Point>, String> {
    let header = ["point", "from", "to", "lockable", "remote", "position"];
    read_rows(path, &header, |fields| {
        Ok(Point {
            name: fields.name()?,
            ends: [fields.name()?, fields.name()?],
            lockable: fields.word("no", "yes")?,
            remote: fields.word("no", "yes")?,
            closed: fields.word("open", "closed")?,
        })
    })
}

fn first_twice<'a>(names: impl Iterator<Item = &'a str>) -> Option<usize> {
    let mut seen = HashSet::new();
    names.map(|name| seen.insert(name)).position(|new| !new)
}

fn check_network(sections: &[Section], points: &[Point]) -> Result<(), String> {
    if sections.is_empty() {
        return Err("NoSections".into());
    }
    if sections.len() > MOST_SECTIONS || points.len() > MOST_POINTS {
        return Err("TooLarge".into());
    }
    if let Some(place) = first_twice(sections.iter().map(|s| s.name.as_str())) {
        return Err(format!("SectionTwice row {}", place + 1));
    }
    if let Some(place) = first_twice(points.iter().map(|p| p.name.as_str())) {
        return Err(format!("PointTwice row {}", place + 1));
    }
    let known: HashSet<&str> = sections.iter().map(|s| s.name.as_str()).collect();
    let is_unknown = |p: &Point| p.ends.iter().any(|end| !known.contains(end.as_str()));
    if let Some(place) = points.iter().position(is_unknown) {
        return Err(format!("UnknownEnd row {}", place + 1));
    }
    if let Some(place) = points.iter().position(|p| p.ends[0] == p.ends[1]) {
        return Err(format!("SameEnds row {}", place + 1));
    }
    Ok(())
}

fn fence<'a>(
    sections: &'a [Section],
    points: &[Point],
    work: &str,
    cut: &[String],
) -> Result<Vec<&'a str>, Fault> {
    let places: HashMap<&str, usize> =
        sections.iter().enumerate().map(|(place, s)| (s.name.as_str(), place)).collect();
    let known: HashSet<&str> = points.iter().map(|p| p.name.as_str()).collect();
    check_name(work).map_err(|fault| format!("name {fault}"))?;
    let from = *places.get(work).ok_or_else(|| format!("network UnknownSection {work}"))?;
    for name in cut {
        check_name(name).map_err(|fault| format!("name {fault}"))?;
        if !known.contains(name.as_str()) {
            return Err(format!("network UnknownPoint {name}"));
        }
    }
    let cut: HashSet<&str> = cut.iter().map(String::as_str).collect();
    let mut around = vec![Vec::new(); sections.len()];
    for point in points.iter().filter(|p| !cut.contains(p.name.as_str())) {
        let [from, to] = point.ends.each_ref().map(|end| places[end.as_str()]);
        around[from].push(to);
        around[to].push(from);
    }
    let mut reached = vec![false; sections.len()];
    let mut open = vec![from];
    reached[from] = true;
    while let Some(place) = open.pop() {
        for &next in &around[place] {
            if !reached[next] {
                reached[next] = true;
                open.push(next);
            }
        }
    }
    let mut names: Vec<&str> = (0..sections.len())
        .filter(|&place| reached[place])
        .map(|place| sections[place].name.as_str())
        .collect();
    names.sort_unstable();
    Ok(names)
}

fn run(words: &[String]) -> Result<(), Fault> {
    let [sections, points, work, cut @ ..] = words else {
        return Err("usage: plain fence SECTIONS POINTS WORK [CUT]...".into());
    };
    let sections = read_sections(sections).map_err(|fault| format!("sections {fault}"))?;
    let points = read_points(points).map_err(|fault| format!("points {fault}"))?;
    check_network(&sections, &points).map_err(|fault| format!("network {fault}"))?;
    let mut printed = String::new();
    for name in fence(&sections, &points, work, cut)? {
        printed.push_str(name);
        printed.push('\n');
    }
    io::stdout().write_all(printed.as_bytes()).map_err(|_| "output WriteFailed".to_string())
}

fn main() {
    let words: Vec<String> = std::env::args().skip(2).collect();
    if let Err(fault) = run(&words) {
        eprintln!("fault: {fault}");
        std::process::exit(1);
    }
}
