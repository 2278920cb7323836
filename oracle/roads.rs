//! Trade with the road-graph tools (document 02, Req 07): what a pair of road-graph texts says, the table made of it,
//! and the texts written from a table, also with its change set (Req 12). Straight from the requests' words.
use crate::changes;
use crate::net::{self, Refused};
use crate::plain::{table, Branch, Carried};
use std::collections::{BTreeMap, BTreeSet};
use std::ops::RangeInclusive;

/// 25 to 29 and 3 name no row.
fn refused(number: u8) -> Refused {
    Refused { number, row: 0, ring: 0 }
}

/// A line `a`: two nodes, from 1, and a number.
struct Arc {
    from: u16,
    to: u16,
    number: i64,
}

/// What a text says: the two counts of its p line, that of arcs by its digits, which may be any number of them; and its
/// arcs.
struct Said {
    nodes: u16,
    count: Vec<u8>,
    arcs: Vec<Arc>,
}

/// A text's arcs by their two nodes.
type Numbers = BTreeMap<(u16, u16), i64>;

/// Numbers have no leading zero and a minus only before a nonzero digit.
fn is_number(field: &[u8]) -> bool {
    match field {
        [b'0'] => true,
        [b'-', digits @ ..] | digits => {
            digits.iter().all(u8::is_ascii_digit) && digits.first().is_some_and(|first| *first != b'0')
        }
    }
}

/// A field's number, where it has one that lies in the range. No range here has numbers of 20 digits.
fn number(field: &[u8], range: RangeInclusive<i64>) -> Option<i64> {
    if !is_number(field) || field.len() >= 20 {
        return None;
    }
    std::str::from_utf8(field).ok()?.parse().ok().filter(|x| range.contains(x))
}

/// A line p: `p sp NODES ARCS`. The node count fits 16 bits; there is no table field for a count of arcs.
fn problem(nodes: &[u8], count: &[u8]) -> Option<Said> {
    if !is_number(count) || count[0] == b'-' {
        return None;
    }
    Some(Said { nodes: number(nodes, 0..=65_535)? as u16, count: count.to_vec(), arcs: vec![] })
}

/// What a text says, whose numbers lie in the range; nothing where 25 is its due.
fn said(text: &[u8], range: RangeInclusive<i64>) -> Option<Said> {
    let mut lines: Vec<&[u8]> = text.split(|byte| *byte == b'\n').collect();
    // Every line ends in a line feed, so nothing stands after the last one.
    if !lines.pop()?.is_empty() {
        return None;
    }
    let mut said: Option<Said> = None;
    for line in lines {
        if line.first() == Some(&b'c') {
            continue;
        }
        let fields: Vec<&[u8]> = line.split(|byte| *byte == b' ').collect();
        match (&fields[..], &mut said) {
            ([b"p", b"sp", nodes, count], None) => said = Some(problem(nodes, count)?),
            ([b"a", from, to, x], Some(said)) => {
                let node = |field| number(field, 1..=said.nodes as i64).map(|x| x as u16);
                let arc = Arc { from: node(from)?, to: node(to)?, number: number(x, range.clone())? };
                said.arcs.push(arc);
            }
            _ => return None,
        }
    }
    said
}

/// The p line has as many arcs as the text.
fn counted(said: &Said) -> bool {
    said.count == said.arcs.len().to_string().as_bytes()
}

/// The arcs, none given twice, from a node to itself or without its equal opposite; else nothing.
fn opposites(arcs: &[Arc]) -> Option<Numbers> {
    let mut numbers = Numbers::new();
    for arc in arcs {
        if arc.from == arc.to || numbers.insert((arc.from, arc.to), arc.number).is_some() {
            return None;
        }
    }
    arcs.iter().all(|arc| numbers.get(&(arc.to, arc.from)) == Some(&arc.number)).then_some(numbers)
}

/// The branches that a text names, whichever way round.
fn branches(numbers: &Numbers) -> BTreeSet<(u16, u16)> {
    numbers.keys().map(|(a, b)| (*a.min(b), *a.max(b))).collect()
}

/// The table made: a row takes node order and place from its branch's first arc in the length text.
fn made(lengths: &Said, weights: &Numbers, bound: u32) -> Vec<u8> {
    let mut seen = BTreeSet::new();
    let mut rows: Vec<Branch> = vec![];
    for arc in &lengths.arcs {
        if !seen.contains(&(arc.to, arc.from)) {
            let weight = weights[&(arc.from, arc.to)] as i32;
            rows.push((arc.from - 1, arc.to - 1, arc.number as u32, Carried::Weight(weight)));
        }
        seen.insert((arc.from, arc.to));
    }
    table(lengths.nodes, bound, &rows)
}

/// Reads a pair of texts, the bound being passed beside, and writes a version 1 table into the lent bytes: its size.
pub fn read(lengths: &[u8], weights: &[u8], bound: u32, lent: &mut [u8]) -> Result<usize, Refused> {
    let (Some(long), Some(heavy)) = (said(lengths, 0..=0xFFFF_FFFF), said(weights, -0x8000_0000..=0x7FFF_FFFF)) else {
        return Err(refused(25));
    };
    if !counted(&long) || !counted(&heavy) || long.nodes != heavy.nodes || long.count != heavy.count {
        return Err(refused(26));
    }
    let (Some(l), Some(w)) = (opposites(&long.arcs), opposites(&heavy.arcs)) else {
        return Err(refused(27));
    };
    if branches(&l) != branches(&w) {
        return Err(refused(28));
    }
    let table = made(&long, &w, bound);
    if lent.len() < table.len() {
        return Err(refused(29));
    }
    net::accept(&table)?;
    lent[..table.len()].copy_from_slice(&table);
    Ok(table.len())
}

/// One of the two texts of a table: the p line, then each row's arc and its opposite.
fn text(net: &net::Net, number: fn(&net::Row) -> i64) -> Vec<u8> {
    let mut text = format!("p sp {} {}\n", net.n, 2 * net.rows.len());
    for row in &net.rows {
        let (a, b, x) = (row.ends[0] + 1, row.ends[1] + 1, number(row));
        text += &format!("a {a} {b} {x}\na {b} {a} {x}\n");
    }
    text.into_bytes()
}

/// The two texts of a table, or of the table with a set's rows written in: 1 to 6, where 3 is any other version than 1;
/// with a set 33 and 34; 7 to 11.
pub fn texts(t: &[u8], set: Option<&[u8]>) -> Result<(Vec<u8>, Vec<u8>), Refused> {
    if t.len() >= 12 && t.starts_with(b"RTN") && t[3..5] != [1, 0] {
        return Err(refused(3));
    }
    let net = match set {
        None => net::accept(t)?,
        Some(set) => net::accept(&changes::changed(t, set)?)?,
    };
    Ok((text(&net, |row| row.length as i64), text(&net, |row| row.weight)))
}

/// Writes both texts into the lent bytes, after 29: their sizes.
pub fn write(
    t: &[u8],
    set: Option<&[u8]>,
    lengths: &mut [u8],
    weights: &mut [u8],
) -> Result<(usize, usize), Refused> {
    let (long, heavy) = texts(t, set)?;
    if lengths.len() < long.len() || weights.len() < heavy.len() {
        return Err(refused(29));
    }
    lengths[..long.len()].copy_from_slice(&long);
    weights[..heavy.len()].copy_from_slice(&heavy);
    Ok((long.len(), heavy.len()))
}
