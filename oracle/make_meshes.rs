//! Random meshes (document 02, Req 14), some damaged.
use crate::asks::{Ask, Op};
use crate::cases::Case;
use crate::changes::HEAD;
use crate::make::{lengths, weights};
use crate::plain::{table, Carried, MESH};
use crate::random::Random;

/// Two nodes for each row.
type Pairs = Vec<(usize, usize)>;

/// Rings and single rows, each hung on a node that is there already, so that no row lies on two rings.
fn hung(r: &mut Random, n: usize) -> Pairs {
    let (place, size, most) = (r.below(4), r.below(5), 1 + r.below(n));
    let (mut pairs, mut next) = (vec![], 1);
    while next < n {
        let at = match place {
            0 => next - 1,
            1 => next - 1 - r.below(next.min(3)),
            2 if !r.one_in(4) => next - 1,
            _ => r.below(next),
        };
        let new = match size {
            0 => 1,
            1 => 2,
            2 => 1 + r.below(3),
            3 => if r.one_in(2) { 1 } else { most },
            _ => 1 + r.below(most),
        };
        let new = new.min(n - next);
        pairs.push((at, next));
        pairs.extend((next + 1..next + new).map(|x| (x - 1, x)));
        if new > 1 {
            pairs.push((next + new - 1, at));
        }
        next += new;
    }
    pairs
}

/// Any pairs of n nodes, each once: about as many as a tree has, or any number.
fn any(r: &mut Random, n: usize) -> Pairs {
    let mut pairs: Pairs = (0..n).flat_map(|b| (0..b).map(move |a| (a, b))).collect();
    r.shuffle(&mut pairs);
    let many = if r.one_in(3) { r.below(pairs.len() + 1) } else { (n + r.below(4)).saturating_sub(2) };
    pairs.truncate(many);
    pairs
}

/// A row more, between any two nodes or those of another row, once or twice; a row less; or both.
fn spoil(r: &mut Random, n: usize, pairs: &mut Pairs) {
    let sort = r.below(6);
    if (4..6).contains(&sort) && !pairs.is_empty() {
        pairs.remove(r.below(pairs.len()));
    }
    for _ in 0..if sort == 1 { 2 } else { 1 } {
        let to = r.below(pairs.len() + 1);
        match sort {
            0 | 1 if !pairs.is_empty() => { let again = r.pick(pairs); pairs.insert(to, again) }
            2..=4 if n > 1 => { let a = r.below(n); pairs.insert(to, (a, (a + 1 + r.below(n - 1)) % n)) }
            _ => {}
        }
    }
}

/// One fault of the bytes, or what is none.
fn damage(r: &mut Random, t: &mut Vec<u8>, n: usize) {
    let (row, some) = (12 * (1 + r.below((t.len() / 12 - 1).max(1))), r.below(t.len()));
    let mut put = |at: usize, bytes: &[u8]| t.iter_mut().skip(at).zip(bytes).for_each(|(old, new)| *old = *new);
    match r.below(16) {
        0 => t.truncate(r.below(t.len() + 1)),
        1 => t.truncate(r.below(14)),
        2 => t.extend(vec![0; 1 + r.below(13)]),
        3 => put(r.below(3), &[r.next() as u8]),
        4 => put(3 + r.below(2), &[r.pick(&[0, 1, 2, 4, 255])]),
        5 => put(3, &[r.pick(&[1, 2])]),
        6 | 7 => put(5, &r.pick(&[0, 1, n as u16 - 1, n as u16 + 1, 255, 256, 257, 4_096, 65_535]).to_le_bytes()),
        8 => put(7, &[1 << r.below(8)]),
        9 => put(row + 2 * r.below(2), &r.pick(&[n as u16, n as u16 + 256, 65_535]).to_le_bytes()),
        10 => for end in [row, row + 2] { put(end, &(n as u16 - 1).to_le_bytes()) },
        11 => put(row + 4, &r.pick(&[1_000_000u32, 1_000_001, 1 << 31, u32::MAX]).to_le_bytes()),
        12 => put(row + 8, &r.pick(&[1_000_000i32, 1_000_001, -1_000_000, -1_000_001, i32::MIN]).to_le_bytes()),
        _ => put(some, &[r.next() as u8]),
    }
}

fn random(r: &mut Random, limit: usize) -> Case {
    let (few, small) = (r.one_in(3), r.one_in(3));
    let n = 1 + r.below(limit.min(if few || small { 8 } else { 256 }));
    let mut pairs = if few { any(r, n) } else { hung(r, n) };
    if r.one_in(4) {
        spoil(r, n, &mut pairs);
    }
    let mut name: Vec<u16> = (0..n as u16).collect();
    if !r.one_in(4) {
        r.shuffle(&mut name);
        r.shuffle(&mut pairs);
    }
    let (long, heavy) = (lengths(r, pairs.len() + 1), weights(r, pairs.len() + 1));
    let mut rows = vec![];
    for (at, (a, b)) in pairs.into_iter().enumerate() {
        let (a, b) = if r.one_in(2) { (b, a) } else { (a, b) };
        rows.push((name[a], name[b], long[at], Carried::Weight(heavy[at])));
    }
    let mut t = table(n as u16, r.next() as u32, &rows);
    t[3] = MESH;
    if r.one_in(5) {
        damage(r, &mut t, n);
        if r.one_in(3) && t.len() >= 12 {
            damage(r, &mut t, n);
        }
    }
    let asks = vec![Ask::new(Op::Mesh, "mesh:"), Ask::new(Op::Accept, "accept:")];
    Case { text: String::new(), table: t, set: HEAD.to_vec(), marks: vec![], asks }
}

/// `count` random meshes of at most `limit` nodes, and of at most 256.
pub fn random_meshes(seed: u64, count: usize, limit: usize) -> Vec<Case> {
    // From numbers of their own, so that the tables of the other cases stay the same.
    let mut r = Random(!seed);
    (0..count).map(|_| random(&mut r, limit)).collect()
}
