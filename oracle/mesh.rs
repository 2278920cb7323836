//! Clock meshes (document 02, Req 14): when a table of version 3 is refused; the most branches on a simple path. All
//! rings and all paths are tried, with no thought of what shape a net has that 38 does not refuse.
use crate::net::{i32_at, refused, u16_at, u32_at, version, Refused};
use std::collections::{BTreeSet, HashMap};

/// A mesh: each node's rows, as (row, other end).
struct Mesh {
    n: usize,
    rows: Vec<[usize; 2]>,
    beside: Vec<Vec<(usize, usize)>>,
}

/// Nodes, at most 256 of them: a bit for each.
type Nodes = [u64; 4];

fn has(nodes: &Nodes, x: usize) -> bool {
    nodes[x / 64] >> (x % 64) & 1 == 1
}

fn with(mut nodes: Nodes, x: usize) -> Nodes {
    nodes[x / 64] |= 1 << (x % 64);
    nodes
}

fn without(mut nodes: Nodes, x: usize) -> Nodes {
    nodes[x / 64] &= !(1 << (x % 64));
    nodes
}

/// What is found of paths: their branches, and the two ends or the one that is not given.
type Found<Ends> = (usize, Ends);

/// More branches, or as many and ends that come first.
fn better<Ends: PartialOrd>(one: &Found<Ends>, other: &Found<Ends>) -> bool {
    one.0 > other.0 || one.0 == other.0 && one.1 < other.1
}

/// The most nodes that a mesh has of which every ring and every path is also written down one by one.
const FEW: usize = 8;

/// Refusals 1 to 10: those of a version 1 table, but for 3, 4 and 6.
fn examine(s: &[u8]) -> Result<(usize, Vec<[usize; 2]>), Refused> {
    if s.len() < 12 {
        return Err(refused(1, 0));
    }
    if &s[0..3] != b"RTN" {
        return Err(refused(2, 0));
    }
    if version(s) != 3 {
        return Err(refused(3, 0));
    }
    let n = u16_at(s, 5);
    if n == 0 || n > 256 {
        return Err(refused(4, 0));
    }
    if s[7] != 0 {
        return Err(refused(5, 0));
    }
    if s.len() % 12 != 0 {
        return Err(refused(6, 0));
    }
    let mut rows = vec![];
    for (r, row) in s[12..].chunks(12).enumerate() {
        let ends = [u16_at(row, 0), u16_at(row, 2)];
        if ends[0] >= n || ends[1] >= n {
            return Err(refused(7, r));
        }
        if ends[0] == ends[1] {
            return Err(refused(8, r));
        }
        if u32_at(row, 4) > 1_000_000 {
            return Err(refused(9, r));
        }
        if !(-1_000_000..=1_000_000).contains(&i32_at(row, 8)) {
            return Err(refused(10, r));
        }
        rows.push(ends);
    }
    Ok((n, rows))
}

/// Then 36, 37 and 38.
fn accept(s: &[u8]) -> Result<Mesh, Refused> {
    let (n, rows) = examine(s)?;
    let mut joined = BTreeSet::new();
    for (r, [a, b]) in rows.iter().enumerate() {
        if !joined.insert((a.min(b), a.max(b))) {
            return Err(refused(36, r));
        }
    }
    let mut beside = vec![vec![]; n];
    for (r, [a, b]) in rows.iter().enumerate() {
        beside[*a].push((r, *b));
        beside[*b].push((r, *a));
    }
    let mesh = Mesh { n, rows, beside };
    if mesh.reached(0, &mesh.all(), None) != mesh.all() {
        return Err(refused(37, 0));
    }
    let shared = (0..mesh.rows.len()).any(|r| mesh.rings_of(r) > 1);
    if n <= FEW {
        assert_eq!(shared, mesh.two_rings(), "a row on two rings, or none: the two ways to look differ");
    }
    if shared { Err(refused(38, 0)) } else { Ok(mesh) }
}

impl Mesh {
    fn all(&self) -> Nodes {
        (0..self.n).fold([0; 4], with)
    }

    /// The nodes that are joined to x along nodes of `left`, one of which it is, without row `but`.
    fn reached(&self, x: usize, left: &Nodes, but: Option<usize>) -> Nodes {
        let (mut nodes, mut to_do) = (with([0; 4], x), vec![x]);
        while let Some(x) = to_do.pop() {
            for &(r, y) in &self.beside[x] {
                if Some(r) != but && has(left, y) && !has(&nodes, y) {
                    nodes = with(nodes, y);
                    to_do.push(y);
                }
            }
        }
        nodes
    }

    /// How many rings row r lies on, two for all above: each is a simple path between its ends without it.
    fn rings_of(&self, r: usize) -> usize {
        let [a, b] = self.rows[r];
        self.paths(a, b, self.all(), r)
    }

    /// How many simple paths there are from x to `end` along nodes of `left` and without row `but`, two for all above.
    /// No step is tried from which the end cannot be reached.
    fn paths(&self, x: usize, end: usize, left: Nodes, but: usize) -> usize {
        if x == end {
            return 1;
        }
        let (left, mut many) = (without(left, x), 0);
        for &(r, y) in &self.beside[x] {
            if r != but && has(&left, y) && many < 2 && has(&self.reached(y, &left, Some(but)), end) {
                many += self.paths(y, end, left, but);
            }
        }
        many.min(2)
    }

    /// Do two rings share a row that have not the same rows? By every ring there is.
    fn two_rings(&self) -> bool {
        let mut rings = BTreeSet::new();
        for x in 0..self.n {
            self.walk(x, &mut vec![x], &mut vec![], &mut rings);
        }
        (0..self.rows.len()).any(|r| rings.iter().filter(|ring| ring.contains(&r)).count() > 1)
    }

    /// Walks on from x, after these nodes and rows, and keeps each ring that closes: the set of its rows.
    fn walk(&self, x: usize, nodes: &mut Vec<usize>, rows: &mut Vec<usize>, rings: &mut BTreeSet<BTreeSet<usize>>) {
        for &(r, y) in &self.beside[x] {
            if rows.contains(&r) {
                continue;
            }
            rows.push(r);
            if y == nodes[0] {
                rings.insert(rows.iter().copied().collect());
            } else if !nodes.contains(&y) {
                nodes.push(y);
                self.walk(y, nodes, rows, rings);
                nodes.pop();
            }
            rows.pop();
        }
    }

    /// Of the simple paths from x along nodes of `left` the most branches, and the lowest node that ends one with so
    /// many. Each next node is tried; what x and the nodes that it can still reach give is kept, to be tried but once.
    fn longest(&self, x: usize, left: Nodes, kept: &mut HashMap<(usize, Nodes), Found<usize>>) -> Found<usize> {
        let left = self.reached(x, &left, None);
        if let Some(found) = kept.get(&(x, left)) {
            return *found;
        }
        let mut best = (0, x);
        for &(_, y) in &self.beside[x] {
            if has(&left, y) {
                let (branches, end) = self.longest(y, without(left, x), kept);
                let found = (branches + 1, end);
                if better(&found, &best) {
                    best = found;
                }
            }
        }
        kept.insert((x, left), best);
        best
    }

    /// The same of all simple paths that go on from the last of these nodes, one by one, with both ends.
    fn every_path(&self, nodes: &mut Vec<usize>, best: &mut Found<[usize; 2]>) {
        let (first, last) = (nodes[0], nodes[nodes.len() - 1]);
        let found = (nodes.len() - 1, [first.min(last), first.max(last)]);
        if better(&found, best) {
            *best = found;
        }
        for &(_, y) in &self.beside[last] {
            if !nodes.contains(&y) {
                nodes.push(y);
                self.every_path(nodes, best);
                nodes.pop();
            }
        }
    }

    /// The most branches on a simple path, and of the pairs of ends of one that has so many the first in pair order.
    fn most(&self) -> Found<[usize; 2]> {
        let (mut best, mut kept) = ((0, [0, 0]), HashMap::new());
        for a in 0..self.n {
            let (branches, b) = self.longest(a, self.all(), &mut kept);
            let found = (branches, [a.min(b), a.max(b)]);
            if better(&found, &best) {
                best = found;
            }
        }
        if self.n <= FEW {
            let mut plain = (0, [0, 0]);
            (0..self.n).for_each(|a| self.every_path(&mut vec![a], &mut plain));
            assert_eq!(plain, best, "the most branches, path by path and with what was kept");
        }
        best
    }
}

/// The most branches on a simple path, and its ends, the lower one first.
pub fn mesh(s: &[u8]) -> Result<(usize, usize, usize), Refused> {
    let (branches, [low, high]) = accept(s)?.most();
    Ok((branches, low, high))
}
