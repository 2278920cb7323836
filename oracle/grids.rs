//! Road graphs as the challenge's generators make them: a planar grid, node after node and row by row, each joined to
//! the next one and to the one below it. Lengths are 1 to 1,000, weights -100 to 100.
use crate::plain::{Branch, Carried};
use crate::random::Random;

fn branch(r: &mut Random, a: usize, b: usize) -> Branch {
    (a as u16, b as u16, r.within(1, 1_000) as u32, Carried::Weight(r.within(-100, 100) as i32))
}

/// Every branch of the grid.
pub fn grid(seed: u64, high: usize, wide: usize) -> Vec<Branch> {
    let (mut r, mut rows) = (Random(seed), vec![]);
    for x in 0..high * wide {
        if (x + 1) % wide != 0 {
            rows.push(branch(&mut r, x, x + 1));
        }
        if x + wide < high * wide {
            rows.push(branch(&mut r, x, x + wide));
        }
    }
    rows
}

/// A tree of the grid's branches that spans it: each node but the first keeps one of the branches that lead to it.
pub fn tree(seed: u64, high: usize, wide: usize) -> Vec<Branch> {
    let mut r = Random(seed);
    let beside: Vec<bool> = (0..high * wide).map(|x| x < wide || x % wide != 0 && r.one_in(2)).collect();
    grid(r.next(), high, wide).into_iter().filter(|row| beside[row.1 as usize] == (row.0 + 1 == row.1)).collect()
}
