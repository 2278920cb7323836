//! Random cases, some damaged.
use crate::changes::{changed, entry, HEAD};
use crate::net::{self, Cells, Net, Window};
use crate::plain::{all_pairs, our_rows, table, Branch, Carried, Changes, List, Listed, New, Plain};
use crate::random::Random;
use std::collections::BTreeSet;

/// The parent of each node but 0, by shape.
fn shape(r: &mut Random, n: usize) -> Vec<usize> {
    let sort = r.below(9);
    let spine = (n / 2).max(1);
    (1..n)
        .map(|i| match sort {
            0 => i - 1,
            1 => 0,
            2 if i < spine => i - 1,
            2 => i - spine,
            3 => (i - 1) / 2,
            4 => (i - 1) / 3,
            5 => i - 1 - r.below(i.min(3)),
            6 if i < spine => i - 1,
            6 => spine - 1,
            7 => if r.one_in(4) { r.below(i) } else { i - 1 },
            _ => r.below(i),
        })
        .collect()
}

pub fn lengths(r: &mut Random, n: usize) -> Vec<u32> {
    let sort = r.below(6);
    (1..n)
        .map(|_| match sort {
            0 => 0,
            1 => 1,
            2 => r.within(0, 4) as u32,
            3 => r.pick(&[0, 1, 999_999, 1_000_000]),
            4 => 1_000_000,
            _ => r.within(0, 1_000_000) as u32,
        })
        .collect()
}

pub fn weights(r: &mut Random, n: usize) -> Vec<i32> {
    let sort = r.below(7);
    (1..n)
        .map(|_| match sort {
            0 => 0,
            1 => 1,
            2 => r.within(-3, 3) as i32,
            3 => r.within(-9, -1) as i32,
            4 => r.pick(&[-1_000_000, -1, 0, 1_000_000]),
            5 => if r.one_in(3) { -1_000_000 } else { 1_000_000 },
            _ => r.within(-1_000_000, 1_000_000) as i32,
        })
        .collect()
}

/// Kinds of every class and at the edges of each; counts at their edges, small, anywhere.
fn cells(r: &mut Random, n: usize) -> Vec<(u16, u16)> {
    let (sort, many) = (r.below(7), r.below(6));
    let kind = |r: &mut Random| match sort {
        0 => 0,
        1 => r.below(24),
        2 => r.below(32),
        3 => r.pick(&[0, 23, 24, 31, 32, 63]),
        4 => 32 + r.below(32),
        5 => if r.one_in(6) { 32 + r.below(32) } else { r.below(24) },
        _ => match r.below(3) {
            0 => r.below(24),
            1 => 24 + r.below(8),
            _ => 32 + r.below(32),
        },
    };
    let count = |r: &mut Random| match many {
        0 => 1,
        1 => r.below(4),
        2 => r.pick(&[0, 1, 19_999, 20_000]),
        3 => 20_000,
        4 => r.below(100),
        _ => r.below(20_001),
    };
    (1..n).map(|_| (kind(r) as u16, count(r) as u16)).collect()
}

/// What each row carries in a table of this version.
fn carried(r: &mut Random, n: usize, version: u8) -> Vec<Carried> {
    if version == 1 {
        weights(r, n).into_iter().map(Carried::Weight).collect()
    } else {
        cells(r, n).into_iter().map(|(kind, count)| Carried::Cells(kind, count)).collect()
    }
}

/// Rows in any order, ends either way round, nodes by any name.
pub fn branches(r: &mut Random, n: usize, version: u8) -> Vec<Branch> {
    let (up, long, heavy) = (shape(r, n), lengths(r, n), carried(r, n, version));
    let mut name: Vec<u16> = (0..n as u16).collect();
    if !r.one_in(4) {
        r.shuffle(&mut name);
    }
    let mut rows: Vec<Branch> = (1..n).map(|i| (name[up[i - 1]], name[i], long[i - 1], heavy[i - 1])).collect();
    for row in rows.iter_mut() {
        if r.one_in(2) {
            *row = (row.1, row.0, row.2, row.3);
        }
    }
    if !r.one_in(4) {
        r.shuffle(&mut rows);
    }
    rows
}

/// A run number: mostly small, so that runs meet; else at the edges of what one may be.
fn run_number(r: &mut Random) -> u16 {
    if r.one_in(6) {
        r.pick(&[0, 32_766, 32_766, 32_766, 32_767, 32_768, 65_534, 65_535])
    } else {
        1 + r.below(4) as u16
    }
}

/// Marks, few or many: half of the time any, among them those held and those spent by the runs that the case asks of;
/// else an old set, every second one with a single mark that 24 refuses.
fn marks(r: &mut Random, n: usize, run: u16, other: u16) -> Vec<u16> {
    let (full, sort) = (r.below(4), r.below(4));
    let top = |run: u16| 32_768 | run;
    let mark = |r: &mut Random| match full {
        0 => 0,
        1 if !r.one_in(6) => 0,
        2 if r.one_in(2) => 0,
        _ if sort >= 2 => r.pick(&[1, 2, 3, 4, 32_766, 65_535]),
        _ => match r.below(4) {
            0 => r.pick(&[run, other]),
            1 => top(r.pick(&[run, other])),
            2 => r.pick(&[1, 2, 3, 4, top(1), top(2), top(3), top(4)]),
            _ => r.pick(&[32_766, 32_767, 32_768, 65_534, 65_535]),
        },
    };
    let mut marks: Vec<u16> = (1..n).map(|_| mark(r)).collect();
    if sort == 3 && n > 1 {
        marks[r.below(n - 1)] = r.pick(&[32_767, 32_768, 32_769, 49_152, 65_533, 65_534]);
    }
    marks
}

/// The length and weight of some pair, so that bounds and floors meet them exactly.
fn some_pair(r: &mut Random, net: &Net, marks: &[u16]) -> (u64, i64) {
    let f = net.from(r.below(net.n), marks);
    let b = r.below(net.n);
    (f.length[b], f.weight[b])
}

/// A bound that is no lower: by one, to the length of some path that is longer, doubled.
fn raise(r: &mut Random, net: &Net, marks: &[u16], bound: u32) -> u32 {
    let longer: Vec<u64> = net.from(r.below(net.n), marks).length.into_iter().filter(|l| *l > bound as u64).collect();
    match r.below(4) {
        0 => bound.saturating_add(1),
        1 => bound.saturating_mul(2),
        _ if longer.is_empty() => bound.saturating_add(1),
        _ => r.pick(&longer) as u32,
    }
}

/// The bound raised twice, the second time now and then to the greatest, and the floor lowered: by one, to the least,
/// to some pair's weight.
fn relaxed(r: &mut Random, net: &Net, marks: &[u16], bound: u32, floor: i64) -> ([u32; 2], i64) {
    let once = raise(r, net, marks, bound);
    let again = if r.one_in(3) { u32::MAX } else { raise(r, net, marks, once) };
    let lower = match r.below(4) {
        0 => floor.saturating_sub(1),
        1 => i64::MIN,
        _ => floor.min(some_pair(r, net, marks).1),
    };
    ([once, again], lower)
}

/// A window. Half of the time it is made to take some pair: its limits stand about that pair's count and weight, just
/// there, a little or far beside them, or at an edge. Else each is any such number, mostly the lower ones first.
fn window(r: &mut Random, net: &Net, marks: &[u16]) -> Window {
    let a = r.below(net.n);
    let b = if net.n == 1 { a } else { (a + 1 + r.below(net.n - 1)) % net.n };
    let f = net.from(a, marks);
    let (count, weight) = (f.count[b].max(1) as u32, f.weight[b]);
    let other = f.weight[r.below(net.n)];
    let (last, wide) = (net.n as u32 - 1, 4_095_000_000);
    let few = |r: &mut Random| r.pick(&[0, 1, 2, count - 1, count, count + 1, last, 4_095, 4_096, u32::MAX]);
    let heavy = |r: &mut Random| {
        let (near, edge) = (r.within(-2, 2), r.pick(&[i64::MIN, i64::MIN + 1, i64::MAX - 1, i64::MAX]));
        r.pick(&[0, other, weight, weight + near, weight - 1_000_000, weight + 1_000_000, -wide, wide, edge, edge])
    };
    let mut counts = [few(r), few(r)];
    let mut sums = [heavy(r), heavy(r)];
    if r.one_in(2) {
        counts = [counts[0].clamp(1, count), counts[1].max(count)];
        sums = [sums[0].min(weight), sums[1].max(weight)];
    } else if !r.one_in(4) {
        counts.sort();
        sums.sort();
    }
    Window { counts, sums }
}

/// A floor that at most so many pairs within the bound weigh, where there are more; else one that all of them do.
fn floor_for(r: &mut Random, net: &Net, marks: &[u16], most: usize) -> i64 {
    let mut weights = vec![];
    for a in 0..net.n {
        let f = net.from(a, marks);
        weights.extend((a + 1..net.n).filter(|b| f.length[*b] <= net.bound).map(|b| f.weight[b]));
    }
    weights.sort();
    match weights.len().checked_sub(most + 1) {
        Some(last_out) => weights[last_out] + 1,
        None => r.pick(&[i64::MIN, *weights.first().unwrap_or(&0)]),
    }
}

/// The row of some pair, be it in the listing or not; any bytes where there is no pair.
fn some_row(r: &mut Random, net: &Net, marks: &[u16]) -> Listed {
    if net.n == 1 {
        return [0; 16].map(|_| r.next() as u8);
    }
    let a = r.below(net.n - 1);
    net.from(a, marks).row(a, a + 1 + r.below(net.n - 1 - a))
}

/// One of a row's bits turned, from the first to the last of these bytes.
fn turn(r: &mut Random, row: &mut Listed, first: usize, last: usize) {
    row[first + r.below(last - first + 1)] ^= 1 << r.below(8);
}

/// One fault of a list's rows, or what is none.
fn spoil(r: &mut Random, net: &Net, marks: &[u16], rows: &mut Vec<Listed>) {
    let (at, to) = (r.below(rows.len().max(1)), r.below(rows.len() + 1));
    match r.below(12) {
        0 | 1 => rows.insert(to, some_row(r, net, marks)),
        2 => rows.insert(to, [0; 16].map(|_| r.next() as u8)),
        _ if rows.is_empty() => rows.push(some_row(r, net, marks)),
        3 => { rows.remove(at); }
        4 | 5 => rows.insert(to, rows[at]),
        // The pair twice, with other figures.
        6 => { let mut row = rows[at]; turn(r, &mut row, 4, 15); rows.insert(to, row) }
        // The higher node first; a node twice; a node that is none.
        7 => { let row = rows[at]; rows[at][..4].copy_from_slice(&[row[2], row[3], row[0], row[1]]) }
        8 => match r.below(3) {
            0 => { let row = rows[at]; rows[at][..2].copy_from_slice(&row[2..4]) }
            1 => rows[at][2..4].copy_from_slice(&(net.n as u16).to_le_bytes()),
            _ => { let end = 2 * r.below(2); rows[at][end..end + 2].copy_from_slice(&[255, 255]) }
        },
        9 => turn(r, &mut rows[at], 0, 3),
        10 => turn(r, &mut rows[at], 4, 7),
        _ => turn(r, &mut rows[at], 8, 15),
    }
}

/// Bytes of another size, or any at all.
fn misfit(r: &mut Random, bytes: &mut Vec<u8>) {
    let any = |r: &mut Random, many: usize| (0..many).map(|_| r.next() as u8).collect::<Vec<u8>>();
    match r.below(4) {
        0 => bytes.truncate(r.pick(&[0, 1, 15, 16, 17, 31, 32])),
        1 => bytes.truncate(r.below(bytes.len() + 1)),
        2 => { let more = 1 + r.below(15); bytes.extend(any(r, more)) }
        _ => { let many = r.pick(&[1, 15, 16, 17, 48, 80]); *bytes = any(r, many) }
    }
}

/// A list to be vetted: our listing's rows in any order, mostly at most 66 of them, so many left out, with so many
/// faults. One with faults may also be the listing of another floor, other marks or another bound, or of a size that
/// does not fit.
fn list(r: &mut Random, net: &Net, t: &[u8], marks: &[u16], floor: i64, out: usize, faults: usize) -> List {
    let most = if r.one_in(16) { 4_090 } else { r.pick(&[10, 30, 66]) };
    let floor = if r.one_in(3) { floor } else { floor_for(r, net, marks, most) };
    let other_bound = |bound: u32| { let mut t = t.to_vec(); net::set_bound(&mut t, bound); t };
    let mut rows = match if faults == 0 { 5 } else { r.below(16) } {
        0 => our_rows(t, marks, floor.saturating_sub(1), most),
        1 => our_rows(t, marks, floor.saturating_add(1), most),
        2 => our_rows(t, &vec![0; marks.len()], floor, most),
        3 => our_rows(&other_bound((net.bound as u32).saturating_sub(1)), marks, floor, most),
        4 => our_rows(&other_bound((net.bound as u32).saturating_add(1)), marks, floor, most),
        _ => our_rows(t, marks, floor, most),
    };
    r.shuffle(&mut rows);
    rows.truncate(rows.len().saturating_sub(out));
    for _ in 0..faults {
        spoil(r, net, marks, &mut rows);
    }
    let mut bytes = rows.concat();
    if faults > 0 && r.one_in(6) {
        misfit(r, &mut bytes);
    }
    List { floor, bytes }
}

/// One fault, of a table of this version.
fn damage(r: &mut Random, t: &mut Vec<u8>, n: usize, version: u8) {
    let some_row = |r: &mut Random| if n < 2 { 0 } else { 12 + 12 * r.below(n - 1) };
    let put = |t: &mut Vec<u8>, at: usize, bytes: &[u8]| {
        for (i, b) in bytes.iter().enumerate() {
            if at + i < t.len() {
                t[at + i] = *b;
            }
        }
    };
    let (one, two) = (some_row(r), some_row(r));
    match r.below(20) {
        0 => t.truncate(r.below(t.len() + 1)),
        1 => t.truncate(r.below(14)),
        2 => t.extend(vec![0; 1 + r.below(13)]),
        3 => put(t, r.below(3), &[r.next() as u8]),
        4 => put(t, 3 + r.below(2), &[r.pick(&[0, 1, 2, 3, 255])]),
        5 => put(t, 5, &r.pick(&[0u16, 1, 2, n as u16 + 1, n as u16 - 1, 4096, 4097, 65535]).to_le_bytes()),
        6 => put(t, 7, &[1 << r.below(8)]),
        // The other version: each weight read as kind and count, or the other way round.
        7 => put(t, 3, &[3 - version]),
        _ if n < 2 => t.truncate(11),
        8 => put(t, one + 2 * r.below(2), &r.pick(&[n as u16, n as u16 + 1, 65535]).to_le_bytes()),
        9 => put(t, one, &[t[one + 2], t[one + 3]].clone()),
        10 => put(t, one + 4, &r.pick(&[1_000_001u32, 1 << 31, u32::MAX]).to_le_bytes()),
        11..=13 if version == 1 => {
            put(t, one + 8, &r.pick(&[1_000_001i32, -1_000_001, i32::MIN, i32::MAX]).to_le_bytes())
        }
        11 => put(t, one + 8, &r.pick(&[64u16, 65, 65_535]).to_le_bytes()),
        12 => put(t, one + 10, &r.pick(&[20_001u16, 65_535]).to_le_bytes()),
        13 => for half in [one + 8, one + 10] { put(t, half, &r.pick(&[63u16, 64, 20_001]).to_le_bytes()) },
        // Rings: a repeat, a repeat the other way round, an end moved, three ends moved, a row moved; a byte changed.
        14 => { let row = t[one..one + 4].to_vec(); put(t, two, &row) }
        15 => { let row = [t[one + 2], t[one + 3], t[one], t[one + 1]]; put(t, two, &row) }
        16 => put(t, one, &(r.below(n) as u16).to_le_bytes()),
        17 => for _ in 0..3 { let at = some_row(r); put(t, at + 2, &(r.below(n) as u16).to_le_bytes()) },
        18 => for end in [one, one + 2] { put(t, end, &(r.below(n) as u16).to_le_bytes()) },
        _ => { let at = r.below(t.len()); put(t, at, &[r.next() as u8]) }
    }
}

/// Some of so many rows: none, one, a few, all, any.
fn some_rows(r: &mut Random, rows: usize) -> BTreeSet<usize> {
    let many = match r.below(8) {
        0 => 0,
        1 | 2 => 1,
        3 | 4 => 1 + r.below(4),
        5 => rows,
        _ => r.below(rows + 1),
    };
    let mut all: Vec<usize> = (0..rows).collect();
    r.shuffle(&mut all);
    all.into_iter().take(many).collect()
}

/// A row of a tree joins other nodes, so that it stays a tree: one of either of the two parts that it leaves.
fn rewire(r: &mut Random, rows: &mut [Branch], at: usize) {
    let net = net::accept(&table(rows.len() as u16 + 1, 0, rows)).ok().expect("a tree");
    let free = vec![0; rows.len()];
    let [near, far] = net.rows[at].ends.map(|end| net.from(end, &free).count);
    let (one, other): (Vec<usize>, Vec<usize>) = (0..net.n).partition(|x| near[*x] < far[*x]);
    (rows[at].0, rows[at].1) = (r.pick(&one) as u16, r.pick(&other) as u16);
}

/// One fault of an entry's row, which stands from a place of the set on.
fn spoil_row(r: &mut Random, set: &mut [u8], at: usize, n: usize, version: u8) {
    let mut put = |at: usize, bytes: &[u8]| set[at..at + bytes.len()].copy_from_slice(bytes);
    let some = |r: &mut Random| (r.below(n) as u16).to_le_bytes();
    match r.below(9) {
        0 => put(at + 2 * r.below(2), &r.pick(&[n as u16, n as u16 + 1, 65_535]).to_le_bytes()),
        1 => { let end = some(r); put(at, &end); put(at + 2, &end) }
        2 => put(at + 4, &r.pick(&[1_000_001u32, 1 << 31, u32::MAX]).to_le_bytes()),
        3 | 4 if version == 1 => put(at + 8, &r.pick(&[1_000_001i32, -1_000_001, i32::MIN, i32::MAX]).to_le_bytes()),
        3 => put(at + 8, &r.pick(&[64u16, 65, 65_535]).to_le_bytes()),
        4 => put(at + 10, &r.pick(&[20_001u16, 65_535]).to_le_bytes()),
        // A ring, most often.
        5 | 6 => put(at + 2 * r.below(2), &some(r)),
        _ => { put(at, &some(r)); put(at + 2, &some(r)) }
    }
}

/// One fault of a set's form: of its first bytes, its size, its row numbers.
fn misform(r: &mut Random, set: &mut Vec<u8>, n: usize) {
    let many = (set.len() - 6) / 14;
    let (one, two) = (6 + 14 * r.below(many.max(1)), 6 + 14 * r.below(many.max(1)));
    match r.below(13) {
        0 => set[r.below(3)] ^= 1 << r.below(8),
        1 => set[3] = r.pick(&[0, 2, 3, 255]),
        2 => set[4] = r.pick(&[1, 2, 255]),
        3 => set[5] = r.pick(&[0, 2, 3, 255]),
        4 => set.truncate(r.below(set.len() + 1)),
        5 => set.truncate(r.pick(&[0, 1, 5, 6, 7, 19, 20, 21])),
        6 => set.extend(vec![0; 1 + r.below(14)]),
        // An entry for a row that is none.
        7 | 8 if many == 0 => set.extend(entry(r.pick(&[0, n as u16 - 1, n as u16, 65_535]), &[0; 12])),
        _ if many == 0 => set.truncate(r.below(6)),
        7 => {
            let last = set.len() - 14;
            set[last..last + 2].copy_from_slice(&r.pick(&[n as u16 - 1, n as u16, 65_535]).to_le_bytes())
        }
        8 => { let any = r.below(n) as u16; set[one..one + 2].copy_from_slice(&r.pick(&[0, any, any]).to_le_bytes()) }
        // A row number twice, beside each other or far apart; two entries that change places.
        9 => { let again = set[one..one + 14].to_vec(); set.splice(one..one, again); }
        10 => { let again = set[one..one + 14].to_vec(); set.extend(again) }
        11 => { let row = [set[one], set[one + 1]]; set[two..two + 2].copy_from_slice(&row) }
        _ => for i in 0..14 { set.swap(one + i, two + i) },
    }
}

/// A change set for a table, which was made from the rows of a tree and may be damaged since. Mostly the rows are a
/// tree again: another one altogether; or some rows have other figures, some join other nodes, or they stay as they
/// are; a row that was damaged may have its own bytes back. Else a row is bad, or the set's form is.
fn change_set(r: &mut Random, t: &[u8], rows: &[Branch], version: u8) -> Vec<u8> {
    let n = rows.len() + 1;
    let (mut new, mut entries) = (rows.to_vec(), some_rows(r, rows.len()));
    let sort = r.below(9);
    if sort == 0 {
        (new, entries) = (branches(r, n, version), (0..rows.len()).collect());
    }
    if (1..=4).contains(&sort) {
        let (long, heavy) = (lengths(r, n), carried(r, n, version));
        for at in &entries {
            (new[*at].2, new[*at].3) = (long[*at], heavy[*at]);
        }
    }
    if (3..=5).contains(&sort) && n > 1 {
        for _ in 0..1 + r.below(3) {
            let at = r.below(rows.len());
            rewire(r, &mut new, at);
            entries.insert(at);
        }
    }
    let bytes = table(n as u16, 0, rows);
    if !r.one_in(4) {
        entries.extend((0..rows.len()).filter(|at| net::part(t, *at as u64) != net::part(&bytes, *at as u64)));
    }
    let bytes = table(n as u16, 0, &new);
    let mut set = HEAD.to_vec();
    for at in &entries {
        set.extend(entry(*at as u16, net::part(&bytes, *at as u64)));
    }
    if sort >= 7 && !entries.is_empty() {
        let at = 8 + 14 * r.below(entries.len());
        spoil_row(r, &mut set, at, n, version);
    }
    if r.one_in(5) {
        misform(r, &mut set, n);
    }
    set
}

/// The set, and numbers about the changed table, where it is one; else about the table as it was made.
fn changes(r: &mut Random, p: &Plain, made: &[u8], rows: &[Branch], version: u8) -> Changes {
    let set = change_set(r, &p.table, rows, version);
    let mut marks = p.settled();
    let fits = |t: &Vec<u8>| net::accept(t).is_ok_and(|net| net.n == marks.len() + 1);
    let mut t = changed(&p.table, &set).ok().filter(fits).unwrap_or(made.to_vec());
    let net = net::accept(&t).ok().expect("a tree");
    marks.resize(net.n - 1, 0);
    let (length, weight) = some_pair(r, &net, &marks);
    let bound = match r.below(8) {
        0 | 1 => net.bound as u32,
        2 => (length as u32).saturating_sub(1),
        3 => length as u32 + 1,
        4 => u32::MAX,
        _ => length as u32,
    };
    net::set_bound(&mut t, bound);
    let net = net::accept(&t).ok().expect("a tree");
    let floor = match r.below(6) {
        0 => i64::MIN,
        1 => weight + 1,
        2 => net::heaviest(&t, &marks).map_or(0, |best| best.3),
        _ => weight,
    };
    let window = window(r, &net, &marks);
    let (out, faults) = if r.one_in(3) { (r.below(3), r.below(2)) } else { (0, 0) };
    let list = list(r, &net, &t, &marks, floor, out, faults);
    // Of an entry, where there is one; of any row; where there is none.
    let of_entry = set.get(6..8).map_or(0, |row| u16::from_le_bytes([row[0], row[1]]) as u64);
    let far = r.pick(&[net.n as u64 - 1, 65_535, 65_536 + of_entry, 1 << 62, u64::MAX]);
    let rows = [of_entry, if r.one_in(3) { far } else { r.below(net.n) as u64 }];
    Changes { set, bound, floor, window, list, rows }
}

/// A number: mostly from 0 to the last that is good, at either end or anywhere, else above it, and then at either end
/// or anywhere up to the greatest.
fn good_or_above(r: &mut Random, last: u32, greatest: u32) -> u32 {
    let (low, high) = if r.one_in(8) { (last + 1, greatest) } else { (0, last) };
    match r.below(4) {
        0 => r.pick(&[low, low + 1]),
        1 => r.pick(&[high - 1, high]),
        _ => r.within(low as i64, high as i64) as u32,
    }
}

/// A row to be written: each of its numbers good or too great, the kind also at the edges of filler, now and then both
/// nodes the same; lent mostly 12 bytes.
fn new_row(r: &mut Random) -> New {
    let short = |r: &mut Random, last| good_or_above(r, last, u16::MAX as u32) as u16;
    let (a, other, count) = (short(r, 4_095), short(r, 4_095), short(r, 20_000));
    let b = if r.one_in(12) { a } else { other };
    let length = good_or_above(r, 1_000_000, u32::MAX);
    let kind = if r.one_in(4) { r.pick(&[23, 24, 31, 32]) } else { short(r, 63) };
    let some = r.below(65_536) as u16;
    let lent = if r.one_in(6) { r.pick(&[0, 1, 11, 13, 24, some]) } else { 12 };
    New { row: Cells { ends: [a, b], length, kind, count }, lent }
}

fn random(r: &mut Random, limit: usize) -> Plain {
    let n = match r.below(8) {
        0 => 1 + r.below(limit.min(4)),
        1 => limit - r.below(limit.min(3)),
        2 | 3 => 1 + r.below(limit.min(12)),
        _ => 1 + r.below(limit),
    };
    let version = if r.one_in(3) { 2 } else { 1 };
    let rows = branches(r, n, version);
    // From numbers of their own, so that the tables stay the same whatever marks, windows, lists, change sets and new
    // rows are made and whatever is relaxed.
    let own = &mut Random(r.next());
    let run = run_number(own);
    let other = if own.one_in(3) { run } else { run_number(own) };
    let mut marks = marks(own, n, run, other);

    let open = net::accept(&table(n as u16, 0, &rows)).ok().expect("a tree");
    let (length, weight) = some_pair(r, &open, &marks);
    let bound = match r.below(10) {
        0 => 0,
        1 => u32::MAX,
        2 => r.pick(&[1, 3, 999_999, 1_000_000, 4_095_000_000]),
        3 => (length as u32).saturating_sub(1),
        4 => length as u32 + 1,
        5 => length as u32 / 2,
        _ => length as u32,
    };
    let mut t = table(n as u16, bound, &rows);
    t[3] = version;

    let floor = match r.below(8) {
        0 => i64::MIN,
        1 => i64::MAX,
        2 => weight + 1,
        3 => r.pick(&[0, 1, -1, 4_095_000_000, -4_095_000_000, -(1 << 33), (1 << 33) - 1]),
        4 | 5 => match net::heaviest(&t, &marks) {
            Ok(best) => best.3,
            Err(_) => 0,
        },
        _ => weight,
    };
    let (raised, lower) = relaxed(own, &open, &marks, bound, floor);
    let windows = [window(own, &open, &marks), window(own, &open, &marks)];
    let bounded = net::accept(&t).ok().expect("a tree");
    let (out, many) = (own.below(3), 1 + own.below(3));
    let spoilt = [if own.one_in(4) { (out, 1) } else { (0, 0) }, if own.one_in(3) { (many, 0) } else { (out, many) }];
    let lists = spoilt.map(|(out, faults)| list(own, &bounded, &t, &marks, floor, out, faults));
    let any = |r: &mut Random| match r.below(24) {
        0 => n as u16,
        1 => r.pick(&[4095, 4096, 65535]),
        2 => 0,
        _ => r.below(n) as u16,
    };
    let (a, b) = (any(r), any(r));
    let start = match r.below(6) {
        0 => (any(r), any(r)),
        1 => (any(r), r.pick(&[0, 65535])),
        2 => (r.below(n) as u16, r.below(n) as u16),
        _ => (0, 0),
    };
    let room = match r.below(6) {
        0 => r.pick(&[0, 15, 16, 17, 31, 32]),
        1 => r.below(65_536) as u16,
        _ => r.below(400) as u16,
    };
    if r.one_in(12) {
        let wrong = r.pick(&[0, n, n.saturating_sub(2), n + 1]);
        marks.resize(wrong, 0);
    }
    let heads = if r.one_in(12) { r.pick(&[0, n - 1, n + 1]) } else { n } as u16;
    let made = t.clone();
    if r.one_in(4) {
        damage(r, &mut t, n, version);
        if r.one_in(4) {
            damage_again(r, &mut t);
        }
    }
    let (whole, nothing) = (all_pairs(n), Changes::nothing(n, bound));
    let p = Plain {
        table: t,
        marks,
        run,
        other,
        a,
        b,
        start,
        room,
        heads,
        floor,
        windows,
        lists,
        raised,
        lower,
        whole,
        changes: nothing,
        new: [New::default(); 2],
    };
    let changes = changes(own, &p, &made, &rows, version);
    Plain { changes, new: [new_row(own), new_row(own)], ..p }
}

/// A second fault, so that the order of refusals shows.
fn damage_again(r: &mut Random, t: &mut Vec<u8>) {
    if !t.is_empty() {
        let at = r.below(t.len());
        t[at] = r.next() as u8;
    }
}

/// `count` random cases of at most `limit` nodes.
pub fn random_cases(seed: u64, count: usize, limit: usize) -> Vec<Plain> {
    let mut r = Random(seed);
    (0..count).map(|_| random(&mut r, limit)).collect()
}
