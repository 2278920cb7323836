//! A net and what every operation says of it, straight from documents 01 and 02: plain scans, nothing clever.
use std::collections::HashSet;

/// A refusal: its number, the row it names (0 where it names none), and for 11 alone how many rows the ring has, else 0
/// (document 02, Req 03).
pub struct Refused {
    pub number: u8,
    pub row: usize,
    pub ring: usize,
}

/// A refusal that tells of no ring.
pub fn refused(number: u8, row: usize) -> Refused {
    Refused { number, row, ring: 0 }
}

pub struct Row {
    pub ends: [usize; 2],
    pub length: u64,
    pub weight: i64,
}

/// An accepted net.
pub struct Net {
    pub n: usize,
    pub bound: u64,
    pub rows: Vec<Row>,
    /// For each node, its (row, other end).
    beside: Vec<Vec<(usize, usize)>>,
}

/// From one node to every node: length, weight and branch count of the path, and the row and node it comes from last.
pub struct From {
    pub length: Vec<u64>,
    pub weight: Vec<i64>,
    pub count: Vec<usize>,
    pub last: Vec<Option<(usize, usize)>>,
}

impl From {
    /// The 16 bytes of a listing's row for the path from `a`, where it starts, to `b`.
    pub fn row(&self, a: usize, b: usize) -> [u8; 16] {
        let mut row = [0; 16];
        row[0..2].copy_from_slice(&(a as u16).to_le_bytes());
        row[2..4].copy_from_slice(&(b as u16).to_le_bytes());
        row[4..8].copy_from_slice(&(self.length[b] as u32).to_le_bytes());
        row[8..16].copy_from_slice(&self.weight[b].to_le_bytes());
        row
    }
}

/// The scores of kinds 0 to 23, in order (document 02, Req 05).
const SCORES: [i64; 24] = [1, 2, 2, 3, 3, 4, 4, 5, 6, 6, 8, 8, 10, 10, 12, 12, 14, 14, 16, 16, 18, 20, 22, 24];

/// A kind's score: kinds 24 to 31 are filler and score 0, kinds 32 to 63 are blocked ground and score -50; higher ones
/// are unknown and have none.
fn score(kind: usize) -> Option<i64> {
    if kind <= 23 {
        Some(SCORES[kind])
    } else if kind <= 31 {
        Some(0)
    } else if kind <= 63 {
        Some(-50)
    } else {
        None
    }
}

/// The kinds that are filler, which the library group no longer places as spare (document 02, Req 13).
const FILLER: std::ops::RangeInclusive<usize> = 24..=31;

/// What a mark says of its branch (document 02, Req 06).
#[derive(Clone, Copy, PartialEq)]
pub enum Mark {
    Free,
    Held(u16),
    Spent(u16),
}

/// A mark's top bit alone, as a number: what setting it adds.
const TOP: u16 = 32_768;

/// A mark's top bit means spent, and its other fifteen bits keep the run. What is not spent and keeps none is free.
pub fn reading(mark: u16) -> Mark {
    let (top, others) = (mark / TOP, mark % TOP);
    match (top, others) {
        (1, run) => Mark::Spent(run),
        (_, 0) => Mark::Free,
        (_, run) => Mark::Held(run),
    }
}

pub fn u16_at(s: &[u8], at: usize) -> usize {
    u16::from_le_bytes([s[at], s[at + 1]]) as usize
}

pub fn u32_at(s: &[u8], at: usize) -> u32 {
    u32::from_le_bytes([s[at], s[at + 1], s[at + 2], s[at + 3]])
}

pub fn i32_at(s: &[u8], at: usize) -> i32 {
    i32::from_le_bytes([s[at], s[at + 1], s[at + 2], s[at + 3]])
}

pub fn version(s: &[u8]) -> usize {
    u16_at(s, 3)
}

/// How many branches the path has that these rows, which make no ring, make between two of n nodes: from the one node
/// on, a row with one end reached reaches its other, until the second node is reached.
fn between(n: usize, rows: &[Row], ends: [usize; 2]) -> usize {
    let mut branches = vec![None; n];
    branches[ends[0]] = Some(0);
    loop {
        if let Some(k) = branches[ends[1]] {
            return k;
        }
        for row in rows {
            match row.ends.map(|x| branches[x]) {
                [Some(k), None] => branches[row.ends[1]] = Some(k + 1),
                [None, Some(k)] => branches[row.ends[0]] = Some(k + 1),
                _ => {}
            }
        }
    }
}

/// Where B stands in a table.
const BOUND: std::ops::Range<usize> = 8..12;

/// The B that a table's bytes hold, be they a table or not; none where there is no room for it.
pub fn bound_in(s: &[u8]) -> Option<u32> {
    s.get(BOUND).map(|part| u32_at(part, 0))
}

/// Another B. Where there is no room for it nothing changes.
pub fn set_bound(s: &mut [u8], bound: u32) {
    if let Some(part) = s.get_mut(BOUND) {
        part.copy_from_slice(&bound.to_le_bytes());
    }
}

/// Refusals 1 to 6, in document 01's order; then the node count and the bound.
pub fn open(s: &[u8]) -> Result<(usize, u64), Refused> {
    if s.len() < 12 {
        return Err(refused(1, 0));
    }
    if &s[0..3] != b"RTN" {
        return Err(refused(2, 0));
    }
    if version(s) != 1 && version(s) != 2 {
        return Err(refused(3, 0));
    }
    let n = u16_at(s, 5);
    if n == 0 || n > 4096 {
        return Err(refused(4, 0));
    }
    if s[7] != 0 {
        return Err(refused(5, 0));
    }
    if s.len() != 12 * n {
        return Err(refused(6, 0));
    }
    Ok((n, u32_at(s, 8) as u64))
}

/// Then row by row 7, 8, 9, and 10 in version 1, 22 and 23 in version 2, where the weight is count times score.
pub fn examine(s: &[u8]) -> Result<(usize, u64, Vec<Row>), Refused> {
    let (n, bound) = open(s)?;
    let mut rows = Vec::new();
    for r in 0..n - 1 {
        let at = 12 + 12 * r;
        let ends = [u16_at(s, at), u16_at(s, at + 2)];
        let length = u32_at(s, at + 4) as u64;
        if ends[0] >= n || ends[1] >= n {
            return Err(refused(7, r));
        }
        if ends[0] == ends[1] {
            return Err(refused(8, r));
        }
        if length > 1_000_000 {
            return Err(refused(9, r));
        }
        let weight;
        if version(s) == 1 {
            weight = i32_at(s, at + 8) as i64;
            if !(-1_000_000..=1_000_000).contains(&weight) {
                return Err(refused(10, r));
            }
        } else {
            let (kind, count) = (u16_at(s, at + 8), u16_at(s, at + 10));
            let score = score(kind).ok_or(refused(22, r))?;
            if count > 20_000 {
                return Err(refused(23, r));
            }
            weight = count as i64 * score;
        }
        rows.push(Row { ends, length, weight });
    }
    Ok((n, bound, rows))
}

/// Then 11. Number 12 is unused (document 02, Req 10): a table of which it could be said would stop the oracle here.
pub fn accept(s: &[u8]) -> Result<Net, Refused> {
    let (n, bound, rows) = examine(s)?;
    // Nodes that the rows so far join have one label.
    let mut label: Vec<usize> = (0..n).collect();
    for (r, row) in rows.iter().enumerate() {
        let (x, y) = (label[row.ends[0]], label[row.ends[1]]);
        if x == y {
            return Err(Refused { number: 11, row: r, ring: 1 + between(n, &rows[..r], row.ends) });
        }
        for l in label.iter_mut() {
            if *l == y {
                *l = x;
            }
        }
    }
    assert!(label.iter().all(|l| *l == label[0]), "n - 1 rows without a ring, and some node isn't joined to node 0");
    let mut beside = vec![Vec::new(); n];
    for (r, row) in rows.iter().enumerate() {
        beside[row.ends[0]].push((r, row.ends[1]));
        beside[row.ends[1]].push((r, row.ends[0]));
    }
    Ok(Net { n, bound, rows, beside })
}

/// What acceptance gives: the node count, the bound, and how many rows have a kind that is filler, whatever their count
/// (document 02, Req 13). Rows of version 1 have no kind.
pub fn acceptance(s: &[u8]) -> Result<(usize, u64, usize), Refused> {
    let net = accept(s)?;
    let filler = match version(s) {
        1 => 0,
        _ => s[12..].chunks(12).filter(|row| FILLER.contains(&u16_at(row, 8))).count(),
    };
    Ok((net.n, net.bound, filler))
}

/// The numbers of a row of version 2, of any size that their places hold.
#[derive(Clone, Copy, Default)]
pub struct Cells {
    pub ends: [u16; 2],
    pub length: u32,
    pub kind: u16,
    pub count: u16,
}

/// The writer (document 02, Req 13): these numbers as a row's 12 bytes. It knows of no table, so a node is too great
/// that is so for every table, and no row is named.
pub fn write_row(row: Cells, lent: &mut [u8]) -> Result<(), Refused> {
    let [a, b] = row.ends;
    if a > 4_095 || b > 4_095 {
        return Err(refused(7, 0));
    }
    if a == b {
        return Err(refused(8, 0));
    }
    if row.length > 1_000_000 {
        return Err(refused(9, 0));
    }
    if score(row.kind as usize).is_none() {
        return Err(refused(22, 0));
    }
    if FILLER.contains(&(row.kind as usize)) {
        return Err(refused(35, 0));
    }
    if row.count > 20_000 {
        return Err(refused(23, 0));
    }
    if lent.len() != 12 {
        return Err(refused(39, 0));
    }
    lent[0..2].copy_from_slice(&a.to_le_bytes());
    lent[2..4].copy_from_slice(&b.to_le_bytes());
    lent[4..8].copy_from_slice(&row.length.to_le_bytes());
    lent[8..10].copy_from_slice(&row.kind.to_le_bytes());
    lent[10..12].copy_from_slice(&row.count.to_le_bytes());
    Ok(())
}

/// A table made anew, in as many bytes: its first 12 as they are, then each row that stands in it whole, its numbers
/// read as those of version 2, by the writer, up to the first that it refuses; then what was made is accepted.
pub fn write_rows(s: &[u8], made: &mut [u8]) -> Result<(usize, u64, usize), Refused> {
    let head = s.len().min(12);
    made[..head].copy_from_slice(&s[..head]);
    for (old, new) in s[head..].chunks_exact(12).zip(made[head..].chunks_exact_mut(12)) {
        let [a, b, kind, count] = [0, 2, 8, 10].map(|at| u16_at(old, at) as u16);
        write_row(Cells { ends: [a, b], length: u32_at(old, 4), kind, count }, new)?;
    }
    acceptance(made)
}

/// What a step of the row reader hands back at a row, of the bytes that it holds: 12 from place 12 + 12 × row on; none
/// where fewer stand there.
pub fn part(held: &[u8], row: u64) -> &[u8] {
    let at = 12 + 12 * row as u128;
    if at + 12 <= held.len() as u128 { &held[at as usize..at as usize + 12] } else { &[] }
}

/// Where the reader stands after that step.
pub fn next(held: &[u8], row: u64) -> u64 {
    if part(held, row).is_empty() { row } else { row + 1 }
}

/// The first step of a reader opened on a table: a refused opening holds nothing.
pub fn first(s: &[u8]) -> &[u8] {
    part(if open(s).is_ok() { s } else { &[] }, 0)
}

/// A decoded row, of any bytes and any row number. What the documents leave open is decided in docs/DECISIONS.md: all
/// is 0 where no row stands; a version that is neither 1 nor 2 is read as version 1; an unknown kind weighs 0; nothing
/// else is tested, so a count above 20,000 weighs count times score too.
pub fn decoded(s: &[u8], row: u64) -> Row {
    let part = part(s, row);
    if part.is_empty() {
        return Row { ends: [0, 0], length: 0, weight: 0 };
    }
    let weight = if version(s) == 2 {
        u16_at(part, 10) as i64 * score(u16_at(part, 8)).unwrap_or(0)
    } else {
        i32_at(part, 8) as i64
    };
    Row { ends: [u16_at(part, 0), u16_at(part, 2)], length: u32_at(part, 4) as u64, weight }
}

impl Net {
    /// Walks from `a` to every node. A marked branch weighs the lesser of 0 and its own weight (document 02, Req 01).
    pub fn from(&self, a: usize, marks: &[u16]) -> From {
        let n = self.n;
        let mut f = From { length: vec![0; n], weight: vec![0; n], count: vec![0; n], last: vec![None; n] };
        let mut to_do = vec![a];
        while let Some(x) = to_do.pop() {
            for &(r, y) in &self.beside[x] {
                if f.last[x].map(|l| l.0) == Some(r) {
                    continue;
                }
                f.length[y] = f.length[x] + self.rows[r].length;
                f.weight[y] = f.weight[x]
                    + if marks[r] == 0 { self.rows[r].weight } else { self.rows[r].weight.min(0) };
                f.count[y] = f.count[x] + 1;
                f.last[y] = Some((r, x));
                to_do.push(y);
            }
        }
        f
    }

    /// Each node's head: the top of its spine.
    pub fn heads(&self) -> Vec<usize> {
        let down = self.from(0, &vec![0; self.n - 1]);
        let parent: Vec<Option<usize>> = down.last.iter().map(|l| l.map(|l| l.1)).collect();
        let leaf = |x: usize| !parent.contains(&Some(x));
        let mut leaves = vec![0; self.n];
        for x in (0..self.n).filter(|x| leaf(*x)) {
            let mut up = Some(x);
            while let Some(y) = up {
                leaves[y] += 1;
                up = parent[y];
            }
        }
        // The child with most leaves below it, among equals the lowest.
        let mut main: Vec<Option<usize>> = vec![None; self.n];
        for c in 0..self.n {
            if let Some(p) = parent[c] {
                if main[p].map_or(true, |m| leaves[c] > leaves[m]) {
                    main[p] = Some(c);
                }
            }
        }
        (0..self.n)
            .map(|x| {
                let mut top = x;
                while let Some(p) = parent[top] {
                    if main[p] != Some(top) {
                        break;
                    }
                    top = p;
                }
                top
            })
            .collect()
    }

    /// The rows and the nodes of the path between `a` and `b`.
    pub fn path(&self, a: usize, b: usize) -> (Vec<usize>, Vec<usize>) {
        let f = self.from(a, &vec![0; self.n - 1]);
        let (mut rows, mut nodes, mut x) = (Vec::new(), vec![b], b);
        while let Some((r, y)) = f.last[x] {
            rows.push(r);
            nodes.push(y);
            x = y;
        }
        (rows, nodes)
    }

    /// 13.
    fn marks_fit(&self, marks: &[u16]) -> Result<(), Refused> {
        if marks.len() != self.n - 1 { Err(refused(13, 0)) } else { Ok(()) }
    }

    /// 15.
    fn two_nodes(&self, a: u16, b: u16) -> Result<(usize, usize), Refused> {
        let (a, b) = (a as usize, b as usize);
        if a >= self.n || b >= self.n || a == b { Err(refused(15, 0)) } else { Ok((a, b)) }
    }
}

/// 14.
fn run_number(run: u16) -> Result<(), Refused> {
    if run == 0 || run > 32_766 { Err(refused(14, 0)) } else { Ok(()) }
}

/// Length, weight and hops of the path between two nodes.
pub fn pair(s: &[u8], marks: &[u16], a: u16, b: u16) -> Result<(u64, i64, usize), Refused> {
    let net = accept(s)?;
    net.marks_fit(marks)?;
    let (a, b) = net.two_nodes(a, b)?;
    let f = net.from(a, marks);
    let heads = net.heads();
    let mut touched: Vec<usize> = net.path(a, b).1.iter().map(|x| heads[*x]).collect();
    touched.sort();
    touched.dedup();
    Ok((f.length[b], f.weight[b], touched.len()))
}

/// The heaviest run: lower node, higher node, length, weight.
pub fn heaviest(s: &[u8], marks: &[u16]) -> Result<(usize, usize, u64, i64), Refused> {
    let net = accept(s)?;
    net.marks_fit(marks)?;
    let mut best: Option<(usize, usize, u64, i64)> = None;
    for a in 0..net.n {
        let f = net.from(a, marks);
        for b in a + 1..net.n {
            if f.length[b] > net.bound {
                continue;
            }
            // Pairs come in order, so an equal one never takes an earlier one's place.
            let better = match best {
                None => true,
                Some((_, _, l, w)) => f.weight[b] > w || f.weight[b] == w && f.length[b] < l,
            };
            if better {
                best = Some((a, b, f.length[b], f.weight[b]));
            }
        }
    }
    best.ok_or(refused(16, 0))
}

/// The heaviest pair of length exactly B, the earlier among equals (document 02, Req 02).
pub fn heaviest_exact(s: &[u8], marks: &[u16]) -> Result<(usize, usize, u64, i64), Refused> {
    let net = accept(s)?;
    net.marks_fit(marks)?;
    let mut best: Option<(usize, usize, u64, i64)> = None;
    for a in 0..net.n {
        let f = net.from(a, marks);
        for b in (a + 1..net.n).filter(|b| f.length[*b] == net.bound) {
            if best.map_or(true, |old| f.weight[b] > old.3) {
                best = Some((a, b, f.length[b], f.weight[b]));
            }
        }
    }
    best.ok_or(refused(21, 0))
}

/// Each node's head into the lent list.
pub fn heads(s: &[u8], list: &mut [u16]) -> Result<(), Refused> {
    let net = accept(s)?;
    if list.len() != net.n {
        return Err(refused(20, 0));
    }
    for (x, h) in net.heads().iter().enumerate() {
        list[x] = *h as u16;
    }
    Ok(())
}

/// The lengths that a listing takes: at most B, or exactly B (document 02, Req 02).
#[derive(Clone, Copy)]
pub enum Lengths {
    AtMost,
    Exactly,
}

/// A page: the rows that fit into the lent bytes, and how many are left over.
struct Page<'a> {
    bytes: &'a mut [u8],
    written: usize,
    left: usize,
}

impl Page<'_> {
    /// A page with nothing on it yet; 17.
    fn lent(bytes: &mut [u8]) -> Result<Page<'_>, Refused> {
        if bytes.len() < 16 { Err(refused(17, 0)) } else { Ok(Page { bytes, written: 0, left: 0 }) }
    }

    /// The list's next row: the path from `a`, where `f` starts, to `b`.
    fn put(&mut self, a: usize, b: usize, f: &From) {
        if 16 * (self.written + 1) > self.bytes.len() {
            self.left += 1;
            return;
        }
        self.bytes[16 * self.written..16 * self.written + 16].copy_from_slice(&f.row(a, b));
        self.written += 1;
    }
}

/// Is a pair strictly after the starting pair, by first node, then second? That may be any two numbers.
fn after(pair: (usize, usize), start: (u16, u16)) -> bool {
    pair > (start.0 as usize, start.1 as usize)
}

/// The page after the starting pair into the lent bytes: rows written, rows left over.
pub fn listing(
    s: &[u8],
    marks: &[u16],
    lengths: Lengths,
    floor: i64,
    start: (u16, u16),
    page: &mut [u8],
) -> Result<(usize, usize), Refused> {
    let net = accept(s)?;
    net.marks_fit(marks)?;
    let mut page = Page::lent(page)?;
    for a in 0..net.n {
        let f = net.from(a, marks);
        for b in a + 1..net.n {
            let taken = match lengths {
                Lengths::AtMost => f.length[b] <= net.bound,
                Lengths::Exactly => f.length[b] == net.bound,
            };
            if after((a, b), start) && taken && f.weight[b] >= floor {
                page.put(a, b, &f);
            }
        }
    }
    Ok((page.written, page.left))
}

/// A window (document 02, Req 09): the lower and the upper limit of a run's branch count, the lower and the upper sum
/// of its weight. Each of the four is within.
#[derive(Clone, Copy, PartialEq, Debug)]
pub struct Window {
    pub counts: [u32; 2],
    pub sums: [i64; 2],
}

impl Window {
    /// 30.
    fn fit(&self) -> Result<(), Refused> {
        let ([fewest, most], [least, greatest]) = (self.counts, self.sums);
        if fewest == 0 || fewest > most || least > greatest { Err(refused(30, 0)) } else { Ok(()) }
    }

    /// Is the path from where `f` starts to `b` in the window? Its length and B play no part.
    fn takes(&self, f: &From, b: usize) -> bool {
        let ([fewest, most], [least, greatest]) = (self.counts.map(i128::from), self.sums.map(i128::from));
        (fewest..=most).contains(&(f.count[b] as i128)) && (least..=greatest).contains(&(f.weight[b] as i128))
    }
}

/// The pair in the window with the most branches, the earlier among equals: lower node, higher node, count, weight.
pub fn window(s: &[u8], marks: &[u16], window: Window) -> Result<(usize, usize, usize, i64), Refused> {
    let net = accept(s)?;
    net.marks_fit(marks)?;
    window.fit()?;
    let mut best: Option<(usize, usize, usize, i64)> = None;
    for a in 0..net.n {
        let f = net.from(a, marks);
        for b in (a + 1..net.n).filter(|b| window.takes(&f, *b)) {
            if best.map_or(true, |old| f.count[b] > old.2) {
                best = Some((a, b, f.count[b], f.weight[b]));
            }
        }
    }
    best.ok_or(refused(31, 0))
}

/// Of all pairs in the window those with the greatest count that any of them has; of these the page after the starting
/// pair into the lent bytes: rows written, rows left over.
pub fn window_list(
    s: &[u8],
    marks: &[u16],
    window: Window,
    start: (u16, u16),
    page: &mut [u8],
) -> Result<(usize, usize), Refused> {
    let net = accept(s)?;
    net.marks_fit(marks)?;
    window.fit()?;
    let mut page = Page::lent(page)?;
    let mut most = 0;
    for a in 0..net.n {
        let f = net.from(a, marks);
        for b in (a + 1..net.n).filter(|b| window.takes(&f, *b)) {
            most = most.max(f.count[b]);
        }
    }
    for a in 0..net.n {
        let f = net.from(a, marks);
        for b in (a + 1..net.n).filter(|b| window.takes(&f, *b)) {
            if f.count[b] == most && after((a, b), start) {
                page.put(a, b, &f);
            }
        }
    }
    Ok((page.written, page.left))
}

/// What vetting a list finds (document 02, Req 11): it is our listing; the first row at fault, from 0; the pair, lower
/// node first.
pub enum Vetted {
    Yes,
    Fault(usize),
    Missing(usize, usize),
}

/// Does a list hold each pair of our listing for that floor, once each and in any order, and nothing else? A row is at
/// fault that is none of our listing's, byte for byte, or whose pair an earlier row names; only where no row is, the
/// first pair missing is told. 32.
pub fn vet(s: &[u8], marks: &[u16], floor: i64, list: &[u8]) -> Result<Vetted, Refused> {
    let net = accept(s)?;
    net.marks_fit(marks)?;
    if list.len() % 16 != 0 {
        return Err(refused(32, 0));
    }
    let given: HashSet<&[u8]> = list.chunks(16).collect();
    // Of our listing's rows, in pair order, those that are given, and the first that is not.
    let (mut ours, mut missing) = (HashSet::new(), None);
    for a in 0..net.n {
        let f = net.from(a, marks);
        for b in (a + 1..net.n).filter(|b| f.length[*b] <= net.bound && f.weight[*b] >= floor) {
            if let Some(row) = given.get(&f.row(a, b)[..]) {
                ours.insert(*row);
            } else if missing.is_none() {
                missing = Some((a, b));
            }
        }
    }
    let mut named = HashSet::new();
    for (r, row) in list.chunks(16).enumerate() {
        let repeats = !named.insert(&row[..4]);
        if repeats || !ours.contains(row) {
            return Ok(Vetted::Fault(r));
        }
    }
    Ok(missing.map_or(Vetted::Yes, |(a, b)| Vetted::Missing(a, b)))
}

/// Each free branch of the path becomes held by the run: how many.
pub fn claim(s: &[u8], marks: &mut [u16], run: u16, a: u16, b: u16) -> Result<usize, Refused> {
    let net = accept(s)?;
    net.marks_fit(marks)?;
    run_number(run)?;
    let (a, b) = net.two_nodes(a, b)?;
    let rows = net.path(a, b).0;
    if rows.iter().map(|r| net.rows[*r].length).sum::<u64>() > net.bound {
        return Err(refused(18, 0));
    }
    let free: Vec<usize> = rows.into_iter().filter(|r| marks[*r] == 0).collect();
    if free.is_empty() {
        return Err(refused(19, 0));
    }
    for r in &free {
        marks[*r] = run;
    }
    Ok(free.len())
}

/// Each branch that the run holds unspent takes another mark; how many.
fn settle(s: &[u8], marks: &mut [u16], run: u16, new: fn(u16) -> u16) -> Result<usize, Refused> {
    let net = accept(s)?;
    net.marks_fit(marks)?;
    run_number(run)?;
    let mut changed = 0;
    for m in marks.iter_mut().filter(|m| reading(**m) == Mark::Held(run)) {
        *m = new(*m);
        changed += 1;
    }
    Ok(changed)
}

/// Commit sets the top bit on what the run holds unspent (document 02, Req 06).
pub fn commit(s: &[u8], marks: &mut [u16], run: u16) -> Result<usize, Refused> {
    settle(s, marks, run, |mark| TOP + mark)
}

/// Abort frees only that.
pub fn abort(s: &[u8], marks: &mut [u16], run: u16) -> Result<usize, Refused> {
    settle(s, marks, run, |_| 0)
}

/// An old set of marks is brought over, with no number changed; 24 names the first old mark from 32,767 to 65,534
/// (document 02, Req 06).
pub fn convert(s: &[u8], marks: &[u16]) -> Result<(), Refused> {
    let net = accept(s)?;
    net.marks_fit(marks)?;
    match marks.iter().position(|old| (32_767..=65_534).contains(old)) {
        Some(row) => Err(refused(24, row)),
        None => Ok(()),
    }
}
