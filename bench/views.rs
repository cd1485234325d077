//! The second yardstick of bench/fence: `views fence SECTIONS POINTS WORK [CUT]...` makes the same checks of the same
//! files as bench/plain.rs and gridclear, and prints the same fence. It copies no name: names are views into the bytes
//! of the files, sections are numbers, and the neighbours of all sections are packed into one list. Of the faults it
//! prints the kind alone.

use std::collections::hash_map::Entry;
use std::collections::HashMap;
use std::fs::File;
use std::io::{self, Read, Write};

const MOST_BYTES: u64 = 4_194_304;
const MOST_SECTIONS: usize = 5_000;
const MOST_POINTS: usize = 10_000;

fn read_file(path: &str) -> Result<&'static [u8], &'static str> {
    let mut bytes = Vec::new();
    let file = File::open(path).map_err(|_| "ReadFailed")?;
    file.take(MOST_BYTES + 1).read_to_end(&mut bytes).map_err(|_| "ReadFailed")?;
    if bytes.len() as u64 > MOST_BYTES {
        return Err("TooLong");
    }
    Ok(bytes.leak())
}

/// One field, and the bytes after it. A field in quotes is copied, which is rare.
fn read_field(bytes: &'static [u8]) -> (&'static [u8], &'static [u8]) {
    let plain = bytes.iter().position(|b| matches!(b, b',' | b'\r' | b'\n' | b'"')).unwrap_or(bytes.len());
    if plain > 0 || bytes.first() != Some(&b'"') {
        let end = bytes.iter().position(|b| matches!(b, b',' | b'\r' | b'\n')).unwrap_or(bytes.len());
        return bytes.split_at(end);
    }
    let (mut field, mut place, mut quoted) = (Vec::new(), 1, true);
    while let Some(&byte) = bytes.get(place) {
        match byte {
            b'"' if quoted && bytes.get(place + 1) == Some(&b'"') => {
                field.push(b'"');
                place += 1;
            }
            b'"' if quoted => quoted = false,
            b',' | b'\r' | b'\n' if !quoted => break,
            _ => field.push(byte),
        }
        place += 1;
    }
    (field.leak(), &bytes[place..])
}

/// Gives the fields of each row to `add`; the first row is the header.
fn read_rows<const N: usize>(
    path: &str,
    header: [&str; N],
    mut add: impl FnMut([&'static str; N]) -> Result<(), &'static str>,
) -> Result<(), &'static str> {
    let bytes = read_file(path)?;
    let mut rest = bytes.strip_prefix(b"\xEF\xBB\xBF").unwrap_or(bytes);
    let mut begun = false;
    while let Some(first) = rest.first() {
        if matches!(first, b'\r' | b'\n') {
            rest = &rest[1..];
            continue;
        }
        let (mut fields, mut count) = ([""; N], 0);
        loop {
            let (field, after) = read_field(rest);
            if count < N {
                fields[count] = std::str::from_utf8(field).map_err(|_| "NotText")?;
            }
            count += 1;
            rest = after;
            if rest.first() != Some(&b',') {
                break;
            }
            rest = &rest[1..];
        }
        if !begun && (count != N || fields != header) {
            return Err("Header");
        }
        if count != N {
            return Err("FieldCount");
        }
        if begun {
            add(fields)?;
        }
        begun = true;
    }
    if begun { Ok(()) } else { Err("Header") }
}

fn check_name(name: &'static str) -> Result<&'static str, &'static str> {
    let good = |b: u8| matches!(b, b'A'..=b'Z' | b'0'..=b'9' | b'-');
    if name.is_empty() || name.len() > 24 || !name.bytes().all(good) {
        return Err("BadName");
    }
    Ok(name)
}

fn check_word(text: &str, no: &str, yes: &str) -> Result<bool, &'static str> {
    match text {
        text if text == yes => Ok(true),
        text if text == no => Ok(false),
        _ => Err("BadWord"),
    }
}

#[derive(Default)]
struct Network {
    sections: Vec<&'static str>,
    points: Vec<[&'static str; 2]>,
    places: HashMap<&'static str, u32>,
    point_places: HashMap<&'static str, u32>,
    ends: Vec<[u32; 2]>,
    #[allow(dead_code)]
    marks: Vec<[bool; 3]>,
}

fn index(names: impl Iterator<Item = &'static str>, into: &mut HashMap<&'static str, u32>, fault: &'static str) -> Result<(), &'static str> {
    for (place, name) in names.enumerate() {
        match into.entry(name) {
            Entry::Vacant(free) => free.insert(place as u32),
            Entry::Occupied(_) => return Err(fault),
        };
    }
    Ok(())
}

fn read_network(sections: &str, points: &str) -> Result<Network, &'static str> {
    let mut network = Network::default();
    read_rows(sections, ["section", "source"], |[name, source]| {
        network.sections.push(check_name(name)?);
        check_word(source, "no", "yes").map(|_| ())
    })?;
    let mut names = Vec::new();
    let header = ["point", "from", "to", "lockable", "remote", "position"];
    read_rows(points, header, |[name, from, to, lockable, remote, position]| {
        names.push(check_name(name)?);
        network.points.push([check_name(from)?, check_name(to)?]);
        let marks = [check_word(lockable, "no", "yes")?, check_word(remote, "no", "yes")?];
        network.marks.push([marks[0], marks[1], check_word(position, "open", "closed")?]);
        Ok(())
    })?;
    if network.sections.is_empty() {
        return Err("NoSections");
    }
    if network.sections.len() > MOST_SECTIONS || names.len() > MOST_POINTS {
        return Err("TooLarge");
    }
    network.places.reserve(network.sections.len());
    network.point_places.reserve(names.len());
    index(network.sections.iter().copied(), &mut network.places, "SectionTwice")?;
    index(names.into_iter(), &mut network.point_places, "PointTwice")?;
    for ends in &network.points {
        let [Some(&from), Some(&to)] = ends.map(|end| network.places.get(end)) else {
            return Err("UnknownEnd");
        };
        network.ends.push([from, to]);
    }
    if network.ends.iter().any(|[from, to]| from == to) {
        return Err("SameEnds");
    }
    Ok(network)
}

fn fence(network: &Network, work: &'static str, cut: &'static [String]) -> Result<Vec<&'static str>, &'static str> {
    let from = *network.places.get(check_name(work)?).ok_or("UnknownSection")?;
    let mut is_cut = vec![false; network.ends.len()];
    for name in cut {
        is_cut[*network.point_places.get(check_name(name)?).ok_or("UnknownPoint")? as usize] = true;
    }
    let mut first = vec![0u32; network.sections.len() + 2];
    for [from, to] in &network.ends {
        first[*from as usize + 2] += 1;
        first[*to as usize + 2] += 1;
    }
    for place in 2..first.len() {
        first[place] += first[place - 1];
    }
    let mut around = vec![(0u32, 0u32); 2 * network.ends.len()];
    for (point, [from, to]) in network.ends.iter().enumerate() {
        for (one, other) in [(from, to), (to, from)] {
            let slot = &mut first[*one as usize + 1];
            around[*slot as usize] = (*other, point as u32);
            *slot += 1;
        }
    }
    let mut reached = vec![false; network.sections.len()];
    let mut found = vec![from];
    reached[from as usize] = true;
    let mut at = 0;
    while at < found.len() {
        let place = found[at] as usize;
        for &(next, point) in &around[first[place] as usize..first[place + 1] as usize] {
            if !reached[next as usize] && !is_cut[point as usize] {
                reached[next as usize] = true;
                found.push(next);
            }
        }
        at += 1;
    }
    let mut names: Vec<&str> = found.iter().map(|&place| network.sections[place as usize]).collect();
    names.sort_unstable();
    Ok(names)
}

fn run(words: &'static [String]) -> Result<(), &'static str> {
    let [sections, points, work, cut @ ..] = words else {
        return Err("usage: views fence SECTIONS POINTS WORK [CUT]...");
    };
    let network = read_network(sections, points)?;
    let mut printed = String::new();
    for name in fence(&network, work, cut)? {
        printed.push_str(name);
        printed.push('\n');
    }
    io::stdout().write_all(printed.as_bytes()).map_err(|_| "output WriteFailed")
}

fn main() {
    let words: Vec<String> = std::env::args().skip(2).collect();
    if let Err(fault) = run(words.leak()) {
        eprintln!("fault: {fault}");
        std::process::exit(1);
    }
}
