//! Random trades: texts of random trees, with comments strewn in and arcs in any order, half of them damaged once or
//! twice; and random tables to be written, also with their change sets.
use crate::make::{branches, random_cases};
use crate::plain::{Branch, Carried};
use crate::random::Random;
use crate::roads;
use crate::trades::{Ask, Op, Trade};

/// A text's lines, without their line feeds; and what stands after the last line feed.
#[derive(Clone)]
struct Text {
    lines: Vec<Vec<u8>>,
    end: Vec<u8>,
}

impl Text {
    fn bytes(&self) -> Vec<u8> {
        let mut bytes: Vec<u8> = self.lines.iter().flat_map(|line| [&line[..], b"\n"].concat()).collect();
        bytes.extend(&self.end);
        bytes
    }

    /// The places of the lines that begin so.
    fn places(&self, first: u8) -> Vec<usize> {
        (0..self.lines.len()).filter(|i| self.lines[*i].first() == Some(&first)).collect()
    }

    /// An a line, where there is one; else any.
    fn some_arc(&self, r: &mut Random) -> usize {
        let arcs = self.places(b'a');
        if arcs.is_empty() { r.below(self.lines.len()) } else { r.pick(&arcs) }
    }

    /// Its line p, as first made.
    fn problem(&mut self) -> &mut Vec<u8> {
        let at = self.lines.iter().position(|line| line.starts_with(b"p")).unwrap_or(0);
        &mut self.lines[at]
    }
}

/// What both texts are made of: rows, with numbers of any size, and the counts of their p lines.
struct Drawn {
    rows: Vec<(u32, u32, i128, i128)>,
    nodes: i128,
    arcs: i128,
}

fn drawn(rows: &[Branch]) -> Drawn {
    let weight = |row: &Branch| match row.3 {
        Carried::Weight(weight) => weight as i128,
        Carried::Cells(..) => 0,
    };
    let rows: Vec<_> = rows.iter().map(|row| (row.0 as u32, row.1 as u32, row.2 as i128, weight(row))).collect();
    Drawn { nodes: rows.len() as i128 + 1, arcs: 2 * rows.len() as i128, rows }
}

fn arc(a: u32, b: u32, x: i128) -> Vec<u8> {
    format!("a {} {} {x}", a + 1, b + 1).into_bytes()
}

/// A row's arcs side by side, all opposites last, sorted by their nodes, or in any order.
fn arcs(r: &mut Random, mut rows: Vec<(u32, u32, i128)>) -> Vec<Vec<u8>> {
    let opposite = |&(a, b, x): &(u32, u32, i128)| (b, a, x);
    let order = r.below(6);
    if order == 2 {
        rows = rows.iter().flat_map(|row| [*row, opposite(row)]).collect();
        rows.sort();
    } else if order == 3 {
        rows.extend(rows.iter().map(opposite).rev().collect::<Vec<_>>());
    } else {
        rows = rows.iter().flat_map(|row| [*row, opposite(row)]).collect();
    }
    if order >= 4 {
        r.shuffle(&mut rows);
    }
    rows.into_iter().map(|(a, b, x)| arc(a, b, x)).collect()
}

fn comment(r: &mut Random) -> Vec<u8> {
    let all: [&[u8]; 9] =
        [b"c", b"c ", b"cx", b"c a road", b"c p sp 3 4", b"ca 1 2 3", b"c\x00\xff", b"c\r", b"c  a 1 1 1 \t"];
    r.pick(&all).to_vec()
}

fn text(r: &mut Random, d: &Drawn, rows: Vec<(u32, u32, i128)>) -> Text {
    let mut lines = vec![format!("p sp {} {}", d.nodes, d.arcs).into_bytes()];
    lines.extend(arcs(r, rows));
    let comments = if r.one_in(2) { 0 } else { r.below(4) };
    for _ in 0..comments {
        let at = r.below(lines.len() + 1);
        let line = comment(r);
        lines.insert(at, line);
    }
    Text { lines, end: vec![] }
}

/// The two texts: the weights' branches in another order, either way round.
fn texts(r: &mut Random, d: &Drawn) -> [Text; 2] {
    let lengths = d.rows.iter().map(|row| (row.0, row.1, row.2)).collect();
    let mut weights: Vec<_> = d.rows.iter().map(|row| (row.0, row.1, row.3)).collect();
    if r.one_in(2) {
        r.shuffle(&mut weights);
        for row in weights.iter_mut().filter(|_| r.one_in(2)) {
            *row = (row.1, row.0, row.2);
        }
    }
    [text(r, d, lengths), text(r, d, weights)]
}

/// Numbers at the edges of what a table, a field of it, and 64 bits take.
const EDGES: [i128; 16] = [
    0,
    1,
    -1,
    1_000_000,
    1_000_001,
    -1_000_000,
    -1_000_001,
    2_147_483_647,
    2_147_483_648,
    -2_147_483_648,
    -2_147_483_649,
    4_294_967_295,
    4_294_967_296,
    18_446_744_073_709_551_615,
    18_446_744_073_709_551_617,
    100_000_000_000_000_000_000_000_000_004,
];

/// A fault that both texts have alike.
fn damage_both(r: &mut Random, d: &mut Drawn) {
    let n = d.rows.len() + 1;
    let some = |r: &mut Random| r.below(n) as u32;
    if d.rows.is_empty() {
        d.nodes = r.pick(&[0, 1, 2, 4_096, 4_097, 65_535, 65_536]);
        return;
    }
    let row = r.below(d.rows.len());
    match r.below(10) {
        0 => d.nodes = r.pick(&[0, 1, 2, 4_096, 4_097, 65_535, 65_536, 65_536 + n as i128]),
        1 => d.nodes += r.pick(&[-1, 1, 1, 2]),
        2 => {
            let m = d.arcs;
            d.arcs = r.pick(&[0, m - 1, m + 1, m / 2, m + 65_536, m + (1 << 32), m + (1 << 64)])
        }
        3 => d.rows[row].2 = r.pick(&EDGES),
        4 => d.rows[row].3 = r.pick(&EDGES),
        5 => {
            // A branch less, or one more: a ring, a repeat, a loop.
            if r.one_in(2) {
                d.rows.remove(row);
            } else {
                let more = (some(r), some(r), 7, 7);
                d.rows.push(more);
            }
            d.arcs = 2 * d.rows.len() as i128;
        }
        // An end moved: a ring, most often; a repeat, a loop.
        6 | 7 => d.rows[row].0 = some(r),
        8 => (d.rows[row].0, d.rows[row].1) = (some(r), some(r)),
        _ => d.rows[row] = d.rows[r.below(d.rows.len())],
    }
}

/// A number in a line, by another spelling or with something beside it.
fn damage_field(r: &mut Random, line: &mut Vec<u8>) {
    let text = String::from_utf8_lossy(line).into_owned();
    let mut fields: Vec<String> = text.split(' ').map(str::to_string).collect();
    let at = r.below(fields.len());
    let field = fields[at].clone();
    fields[at] = match r.below(12) {
        0 => format!("0{field}"),
        1 => format!("-{field}"),
        2 => format!("+{field}"),
        3 => format!("{field} "),
        4 => format!(" {field}"),
        5 => format!("{field}\r"),
        6 => format!("\t{field}"),
        7 => String::new(),
        8 => format!("{field}0"),
        9 => field.to_uppercase(),
        10 => r.pick(&EDGES).to_string(),
        _ => format!("{field} {field}"),
    };
    *line = fields.join(" ").into_bytes();
}

/// A fault of one text.
fn damage_one(r: &mut Random, t: &mut Text, nodes: usize) {
    let some = |r: &mut Random| r.below(nodes.max(1)) as u32;
    let line = t.some_arc(r);
    match r.below(20) {
        0 | 1 => damage_field(r, &mut t.lines[line]),
        2 => damage_field(r, t.problem()),
        3 => t.lines[line] = arc(some(r), some(r), r.within(-3, 9) as i128),
        4 => {
            // Of one arc the number alone.
            let end = t.lines[line].iter().rposition(|b| *b == b' ').map_or(0, |at| at + 1);
            t.lines[line].truncate(end);
            t.lines[line].extend(r.pick(&EDGES).to_string().as_bytes());
        }
        5 => {
            t.lines.remove(line);
        }
        6 => {
            let again = t.lines[line].clone();
            let at = r.below(t.lines.len() + 1);
            t.lines.insert(at, again);
        }
        7 => {
            // In place of another line, so that the count stays.
            let (to, again) = (t.some_arc(r), t.lines[line].clone());
            t.lines[to] = again;
        }
        8 => {
            let other = r.below(t.lines.len());
            t.lines.swap(line, other);
        }
        9 => t.lines.swap(0, line),
        10 => t.lines.insert(line, r.pick(&[&b""[..], b" ", b"x", b"#", b"p sp 1 0", b"a", b"n 1 s", b"C"]).to_vec()),
        11 => t.end = t.lines.pop().unwrap_or_default(),
        12 => t.end = r.pick(&[&b"c"[..], b" ", b"\n", b"\x00", b"a 1 2 3"]).to_vec(),
        13 => {
            let (at, byte) = (r.below(t.lines[line].len() + 1), r.pick(b" \t\r-+0159acpsx\x00\xff"));
            t.lines[line].insert(at, byte);
        }
        14 => {
            if !t.lines[line].is_empty() {
                let at = r.below(t.lines[line].len());
                t.lines[line].remove(at);
            }
        }
        // Both arcs of a branch are of another one.
        _ => {
            let (old, new) = (t.lines[line].clone(), (some(r), some(r)));
            let old = String::from_utf8_lossy(&old).into_owned();
            let fields: Vec<&str> = old.split(' ').collect();
            if let ["a", a, b, x] = fields[..] {
                let back = format!("a {b} {a} {x}").into_bytes();
                let x = x.parse().unwrap_or(0);
                if let Some(at) = t.lines.iter().position(|line| *line == back) {
                    t.lines[at] = arc(new.1, new.0, x);
                }
                t.lines[line] = arc(new.0, new.1, x);
            }
        }
    }
    if t.lines.is_empty() {
        t.lines.push(b"c".to_vec());
    }
}

/// How many bytes are lent for a table of so many branches: as many as it has, or one less, more, any.
fn room(r: &mut Random, branches: usize) -> u32 {
    let exact = 12 + 12 * branches as u32;
    match r.below(16) {
        0 => exact - 1,
        1 => exact + 1,
        2 => exact + r.below(200) as u32,
        3 => r.below(exact as usize) as u32,
        _ => exact,
    }
}

fn ask(op: Op, text: &str) -> Ask {
    Ask { op, text: text.to_string(), shown: 0 }
}

fn bound(r: &mut Random) -> u32 {
    r.pick(&[0, 1, 8, 1_000_000, u32::MAX, 0x0102_0304])
}

/// A byte of a text, and what it becomes: most often a digit, and another one.
fn some_change(r: &mut Random, text: &[u8]) -> (u32, u8) {
    let digits: Vec<usize> = (0..text.len()).filter(|at| text[*at].is_ascii_digit()).collect();
    if digits.is_empty() || r.one_in(3) {
        (r.below(text.len()) as u32, r.pick(b"\n\t\r -+0123456789acp\x00\xff"))
    } else {
        (r.pick(&digits) as u32, r.pick(b"0123456789"))
    }
}

/// Far more branches than a table has, among few nodes: more than 4,095, so that none is ever made.
fn dense(r: &mut Random) -> Drawn {
    let (n, many) = (160 + r.below(40) as u32, 4_096 + r.below(8_000));
    let mut rows: Vec<_> = (0..n).flat_map(|a| (0..a).map(move |b| (a, b, 5, -5))).collect();
    r.shuffle(&mut rows);
    rows.truncate(many);
    Drawn { nodes: r.pick(&[n as i128, 4_096, 4_097]), arcs: 2 * many as i128, rows }
}

/// Texts to be read, and again after a byte of one has changed.
fn reading(r: &mut Random, mut d: Drawn) -> Trade {
    let faults = [0, 0, 0, 1, 1, 2][r.below(6)];
    let mut later = 0;
    for _ in 0..faults {
        if r.one_in(2) { damage_both(r, &mut d) } else { later += 1 }
    }
    let mut two = texts(r, &d);
    for _ in 0..later {
        let i = r.below(2);
        damage_one(r, &mut two[i], d.nodes as usize % 65_536);
    }
    let [first, second] = two.map(|text| text.bytes());
    let mut asks = vec![ask(Op::Read { bound: bound(r), room: room(r, d.rows.len()) }, "read:")];
    if r.one_in(2) {
        let left = r.one_in(2);
        let (place, byte) = some_change(r, if left { &first } else { &second });
        asks.push(ask(if left { Op::First { place, byte } } else { Op::Second { place, byte } }, ""));
        asks.push(ask(Op::Read { bound: bound(r), room: 12 + 12 * d.rows.len() as u32 }, "changed:"));
    }
    Trade { text: String::new(), first, second, asks }
}

/// A table to be written, or with its change set where there is one, with room as much as its texts need, or one less
/// for either, more, any.
fn written(r: &mut Random, table: &[u8], set: Option<&[u8]>) -> Op {
    let (l, w) = roads::texts(table, set).map_or((90, 90), |(l, w)| (l.len(), w.len()));
    let (lengths, weights) = match r.below(12) {
        0 => (l - 1, w),
        1 => (l, w - 1),
        2 => (l + r.below(100), w + r.below(100)),
        3 => (r.below(l), w),
        4 => (l, r.below(w)),
        _ => (l, w),
    };
    let own = table.get(8..12).map_or(0, |b| u32::from_le_bytes(b.try_into().unwrap()));
    let bound = if r.one_in(4) { bound(r) } else { own };
    Op::Write { with: set.is_some(), bound, lengths: lengths as u32, weights: weights as u32 }
}

/// Of a table both. What is written with the set draws from numbers of its own, so that the rest stays as it is.
fn writing(r: &mut Random, own: &mut Random, table: Vec<u8>, set: Vec<u8>) -> Trade {
    let alone = ask(written(r, &table, None), "write:");
    let with = ask(written(own, &table, Some(&set)), "with changes write:");
    Trade { text: String::new(), first: table, second: set, asks: vec![alone, with] }
}

/// `count` random trades of nets of at most `limit` nodes: two of three are read, the third is written. Where nets may
/// be large, one in ten of those that are read has more branches than any net.
pub fn random_trades(seed: u64, count: usize, limit: usize) -> Vec<Trade> {
    let (mut r, mut own) = (Random(seed), Random(!seed));
    let mut tables = random_cases(r.next(), count, limit).into_iter().map(|plain| (plain.table, plain.changes.set));
    (0..count)
        .map(|i| {
            let (table, set) = tables.next().expect("as many tables");
            if i % 3 == 2 {
                return writing(&mut r, &mut own, table, set);
            }
            let n = match r.below(8) {
                0 => 1 + r.below(limit.min(3)),
                1 => limit - r.below(limit.min(3)),
                2 | 3 => 1 + r.below(limit.min(8)),
                _ => 1 + r.below(limit),
            };
            if limit >= 512 && r.one_in(10) {
                let d = dense(&mut r);
                return reading(&mut r, d);
            }
            let d = drawn(&branches(&mut r, n, 1));
            reading(&mut r, d)
        })
        .collect()
}
