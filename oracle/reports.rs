//! The reports: tables in the form that crates/reports reads, the cases that stand first there, and the report of each,
//! by itself and with its change set.
use crate::changes::{changed, entry, HEAD};
use crate::net::{self, Refused};
use crate::plain::{plain, table, Carried, Changes, Plain};
use std::io::{Read, Result, Write};

pub fn write(out: &mut impl Write, cases: &[Plain]) -> Result<()> {
    out.write_all(&(cases.len() as u32).to_le_bytes())?;
    for c in cases {
        let (sort, lifted) = match c.floor {
            i64::MIN => (1u16, 0),
            i64::MAX => (2, 0),
            z => (0, (z + (1 << 33)) as u64),
        };
        let set = &c.changes.set;
        assert!(lifted < 1 << 34 && c.table.len() <= 49_200 && c.marks.len() <= 4_200 && c.heads <= 4_200);
        assert!(set.len() <= 65_535);
        let words = [
            c.table.len() as u16,
            c.marks.len() as u16,
            c.run,
            c.other,
            c.a,
            c.b,
            c.start.0,
            c.start.1,
            c.room,
            c.heads,
            sort,
        ];
        for w in words {
            out.write_all(&w.to_le_bytes())?;
        }
        out.write_all(&lifted.to_le_bytes())?;
        out.write_all(&(set.len() as u16).to_le_bytes())?;
        out.write_all(&c.table)?;
        out.write_all(set)?;
        for m in &c.marks {
            out.write_all(&m.to_le_bytes())?;
        }
    }
    Ok(())
}

/// The tables, each with its change set: a report depends on nothing else.
pub fn read(input: &mut impl Read) -> Result<Vec<(Vec<u8>, Vec<u8>)>> {
    let mut count = [0; 4];
    input.read_exact(&mut count)?;
    let mut tables = Vec::new();
    for _ in 0..u32::from_le_bytes(count) {
        let mut head = [0; 32];
        input.read_exact(&mut head)?;
        let size = |i: usize| u16::from_le_bytes([head[i], head[i + 1]]) as usize;
        let mut table = vec![0; size(0)];
        input.read_exact(&mut table)?;
        let mut set = vec![0; size(30)];
        input.read_exact(&mut set)?;
        let mut marks = vec![0; 2 * size(2)];
        input.read_exact(&mut marks)?;
        tables.push((table, set));
    }
    Ok(tables)
}

fn refuse(out: &mut impl Write, why: Refused) -> Result<()> {
    match why.number {
        11 => writeln!(out, "refused 11 row {} ring {}", why.row, why.ring),
        k => writeln!(out, "refused {k} row {}", why.row),
    }
}

/// The report of a table with its change set.
pub fn report_with(out: &mut impl Write, t: &[u8], set: &[u8]) -> Result<()> {
    match changed(t, set) {
        Ok(t) => report(out, &t),
        Err(why) => refuse(out, why),
    }
}

/// The report of a table, all branches free: its lines as documents 01 and 02 have them.
pub fn report(out: &mut impl Write, t: &[u8]) -> Result<()> {
    let free = |n: usize| vec![0; n - 1];
    let found = net::accept(t).and_then(|net| Ok((net::heaviest(t, &free(net.n))?, net)));
    let ((a, b, length, weight), net) = match found {
        Ok(x) => x,
        Err(why) => return refuse(out, why),
    };
    writeln!(out, "net {} bound {}", net.n, net.bound)?;
    writeln!(out, "best {a} {b} length {length} weight {weight}")?;
    let mut total = 0;
    for a in 0..net.n {
        let f = net.from(a, &free(net.n));
        for b in (a + 1..net.n).filter(|b| f.length[*b] <= net.bound && f.weight[*b] == weight) {
            writeln!(out, "pair {a} {b} {} {}", f.length[b], f.weight[b])?;
            total += 1;
        }
    }
    writeln!(out, "total {total}")
}

/// Node, node, length, weight.
type Weighed = (u16, u16, u32, i32);

fn version_1(n: u16, bound: u32, rows: &[Weighed]) -> Vec<u8> {
    table(n, bound, &rows.iter().map(|&(a, b, l, w)| (a, b, l, Carried::Weight(w))).collect::<Vec<_>>())
}

/// Node, node, length, kind, count.
type Counted = (u16, u16, u32, u16, u16);

fn version_2(n: u16, bound: u32, rows: &[Counted]) -> Vec<u8> {
    table(n, bound, &rows.iter().map(|&(a, b, l, k, c)| (a, b, l, Carried::Cells(k, c))).collect::<Vec<_>>())
}

const N5: [Weighed; 4] = [(0, 1, 4, 5), (1, 2, 3, 2), (1, 3, 6, 7), (3, 4, 2, -3)];

/// A net shaped as N5, of version 2 (document 02, Req 05): 5, 2 and 7 cells of kind 0, and blocked ground.
const CELLS: [Counted; 4] = [(0, 1, 4, 0, 5), (1, 2, 3, 0, 2), (1, 3, 6, 0, 7), (3, 4, 2, 32, 1)];

fn n5(bound: u32) -> Vec<u8> {
    version_1(5, bound, &N5)
}

/// Nets with rings (document 02, Req 03): of two rows, either way round; of three, with a branch apart; apart from node
/// 0; of all rows, closed by the last; two rings, of which the first to close is told, once the longer and once the
/// shorter; and one with rows that hang from it, lead to it and follow it.
fn rings() -> Vec<Vec<u8>> {
    let of = |ends: &[(u16, u16)]| {
        let rows: Vec<Weighed> = ends.iter().map(|(a, b)| (*a, *b, 3, 2)).collect();
        version_1(rows.len() as u16 + 1, 8, &rows)
    };
    vec![
        of(&[(0, 1), (0, 1), (1, 3), (3, 4)]),
        of(&[(0, 1), (1, 2), (1, 0), (3, 4)]),
        of(&[(0, 1), (1, 2), (2, 0), (3, 4)]),
        of(&[(0, 1), (2, 3), (3, 4), (4, 2)]),
        of(&[(4, 3), (1, 0), (3, 2), (0, 2), (1, 4)]),
        of(&[(0, 1), (1, 2), (2, 0), (1, 0)]),
        of(&[(0, 1), (1, 0), (1, 2), (2, 0)]),
        of(&[(0, 1), (1, 2), (1, 3), (3, 4), (4, 5), (2, 6), (4, 2), (7, 8)]),
    ]
}

/// Tables of version 2 (document 02, Req 05): CELLS with each bound, once read as version 1; of version 3; with an
/// unknown kind, with a count too great, with both, and with these in two rows; blocked ground alone; the largest
/// counts; and filler, which ties.
fn scored() -> Vec<Vec<u8>> {
    let changed = |row: usize, to: Counted| {
        let mut rows = CELLS;
        rows[row] = to;
        rows
    };
    let of = |rows: &[Counted]| version_2(rows.len() as u16 + 1, 9, rows);
    let mut all: Vec<Vec<u8>> = [8, 9, 10, 2, 1].iter().map(|b| version_2(5, *b, &CELLS)).collect();
    for version in [1, 3] {
        let mut t = of(&CELLS);
        t[3] = version;
        all.push(t);
    }
    all.push(of(&changed(2, (1, 3, 6, 64, 7))));
    all.push(of(&changed(3, (3, 4, 2, 32, 20_001))));
    all.push(of(&changed(1, (1, 2, 3, 64, 20_001))));
    let mut two = changed(1, (1, 2, 3, 24, 20_001));
    two[2] = (1, 5, 6, 64, 7);
    all.push(of(&two));
    all.push(of(&[(0, 1, 4, 32, 2), (1, 2, 5, 63, 1), (1, 3, 4, 50, 1)]));
    all.push(of(&[(0, 1, 4, 23, 20_000), (1, 2, 5, 22, 20_000), (1, 3, 4, 63, 20_000)]));
    all.push(of(&[(0, 1, 4, 24, 20_000), (1, 2, 5, 31, 1), (1, 3, 4, 27, 0)]));
    all
}

/// The change set that puts these rows in place of those with their numbers: the rows are the first of a table's.
fn set(rows: &[u16], of: &[u8]) -> Vec<u8> {
    let entries = rows.iter().enumerate().map(|(i, row)| entry(*row, net::part(of, i as u64)));
    [HEAD.to_vec(), entries.collect::<Vec<_>>().concat()].concat()
}

/// Tables with change sets (document 02, Req 12): N5 with rows 1 and 3 changed, with all, and with its rows as they
/// stand; bad rows, a ring and a bound too small mended by a set; good ones spoilt; 33 by each of its causes, 34 by
/// each, and both against what else would be refused; the same of version 2.
fn with_sets() -> Vec<(Vec<u8>, Vec<u8>)> {
    let rows = |rows: &[Weighed]| version_1(rows.len() as u16 + 1, 8, rows);
    let two = [(1, 2, 3, 9), (2, 4, 1, 4)];
    let good = set(&[1, 3], &rows(&two));
    let one = |row: u16, to: Weighed| set(&[row], &rows(&[to]));
    let damaged = rows(&[(0, 1, 4, 5), (9, 9, 0, 0), (1, 3, 6, 7), (3, 4, 2, 1_000_001)]);
    let ring = rows(&[(0, 1, 4, 5), (1, 0, 3, 2), (1, 3, 6, 7), (3, 4, 2, -3)]);
    let short = n5(8)[..48].to_vec();
    let mut all = vec![
        (n5(8), good.clone()),
        (n5(8), set(&[0, 1, 2, 3], &rows(&[(4, 3, 1, 1), (3, 2, 1, 1), (2, 1, 1, 1), (1, 0, 1, 1)]))),
        (n5(8), set(&[0, 1, 2, 3], &n5(8))),
        (damaged.clone(), good.clone()),
        (damaged.clone(), one(1, two[0])),
        (ring.clone(), one(1, (1, 2, 3, 2))),
        (n5(1), one(3, (3, 4, 1, -3))),
        (n5(2), one(3, (3, 4, 3, -3))),
        (n5(8), one(2, (1, 5, 6, 7))),
        (n5(8), one(2, (3, 3, 6, 7))),
        (n5(8), one(0, (0, 1, 1_000_001, 5))),
        (n5(8), one(3, (3, 4, 2, -1_000_001))),
        (n5(8), one(3, (3, 0, 2, -3))),
        (ring, one(1, (3, 1, 2, 2))),
    ];
    for (at, byte) in [(0, b'r'), (1, 0), (2, b'n'), (3, 2), (4, 1), (5, 0), (5, 2)] {
        let mut bad = good.clone();
        bad[at] = byte;
        all.push((n5(8), bad));
    }
    for size in [0, 5, 6, 7, 19, 20, 21, 33] {
        all.push((n5(8), good[..size].to_vec()));
    }
    for numbers in [[1, 1], [3, 1], [3, 4], [0, 65_535]] {
        all.push((n5(8), set(&numbers, &rows(&two))));
    }
    all.push((version_1(1, 8, &[]), one(0, (0, 1, 1, 1))));
    all.push((short.clone(), set(&[3, 1], &rows(&two))));
    all.push((short, good[..5].to_vec()));
    all.push((n5(8), set(&[3, 1], &rows(&two))[..33].to_vec()));
    all.push((damaged.clone(), set(&[3, 1], &rows(&two))));
    all.push((damaged, good[..21].to_vec()));
    let cells = |row: u16, to: Counted| set(&[row], &version_2(2, 8, &[to]));
    for to in [(1, 2, 3, 1, 5), (1, 2, 3, 64, 5), (1, 2, 3, 63, 20_001), (1, 2, 9, 0, 20_000)] {
        all.push((version_2(5, 8, &CELLS), cells(1, to)));
    }
    all.push((n5(8), cells(1, (1, 2, 3, 9, 0))));
    all
}

/// Document 01's own, a refusal of each sort, a ring, all weights negative, one node, the largest numbers, and ties
/// over several pages (`room` is a page's bytes) and over more lines than a buffer of text has; then version 2, all
/// with a set that changes nothing; then those with change sets.
pub fn first() -> Vec<Plain> {
    let of = |table: Vec<u8>, room| Plain { table, room, ..plain(n5(8), &[]) };
    let with = |(table, set)| Plain { changes: Changes { set, ..Changes::nothing(5, 8) }, ..of(table, 16) };
    let star = |n: u16, bound, weight| version_1(n, bound, &(1..n).map(|x| (0, x, 0, weight)).collect::<Vec<_>>());
    let mut all: Vec<Plain> = [8, 9, 10, 2, 1].iter().map(|b| of(n5(*b), 160)).collect();
    let mut ring = N5;
    ring[1] = (0, 1, 3, 2);
    all.push(of(version_1(5, 8, &ring), 16));
    all.extend(rings().into_iter().map(|t| of(t, 16)));
    all.push(of(version_1(1, 9, &[]), 16));
    all.push(of(vec![], 16));
    all.push(of(n5(8)[..48].to_vec(), 16));
    all.push(of(version_1(4097, 8, &N5), 16));
    for (at, byte) in [(0, b'r'), (7, 1)] {
        let mut t = n5(8);
        t[at] = byte;
        all.push(of(t, 16));
    }
    for bad in [(1, 3, 3, 2), (1, 1, 3, 2), (1, 2, 1_000_001, 2), (1, 2, 3, 1_000_001)] {
        all.push(of(version_1(3, 8, &[(0, 1, 3, 2), bad]), 16));
    }
    all.push(of(version_1(4, 9, &[(0, 1, 4, -5), (1, 2, 5, -5), (1, 3, 4, -6)]), 16));
    all.push(of(version_1(3, u32::MAX, &[(2, 1, 1_000_000, -1_000_000), (1, 0, 1_000_000, -1_000_000)]), 16));
    let far: Vec<Weighed> = (1..60).map(|x| (x - 1, x, 1_000_000, 1_000_000)).collect();
    all.push(of(version_1(60, u32::MAX, &far), 16));
    for room in [0, 16, 33, 95, 96, 160] {
        all.push(of(star(4, 0, 0), room));
    }
    all.push(of(star(5, 0, -7), 32));
    all.push(of(star(40, 0, 0), 9_600));
    all.push(of(star(40, 0, 0), 11_216));
    all.extend(scored().into_iter().map(|t| of(t, 32)));
    all.extend(with_sets().into_iter().map(with));
    all
}
