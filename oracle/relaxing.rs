//! What must hold between the answers of one case: relaxing never hurts (document 02, Req 08). A larger B never lowers
//! the heaviest weight and never turns a run found into 16; a lower floor's list contains the higher floor's, in the
//! same order; a claim never raises the heaviest weight, an abort never lowers it, and a commit, of which no weight
//! tells, leaves the answer as it is. The exact mode is not meant. A check on the reading, not on the proof.
use crate::asks::{Ask, Op, Said};
use crate::cases::Case;
use crate::net;
use std::cmp::Ordering::{Equal, Greater, Less};

/// An ask with its answer.
type Told<'a> = (&'a Ask, &'a Said);

/// What came since the last answer to heaviest: did something relax (B raised, an abort), tighten (B lowered, a claim),
/// and was B among it? What changes nothing, as when it is refused, does not count.
#[derive(Default)]
struct Since {
    relaxed: bool,
    tightened: bool,
    bound: bool,
}

impl Since {
    fn bound(&mut self, before: Option<u32>, after: Option<u32>) {
        self.relaxed |= after > before;
        self.tightened |= after < before;
        self.bound |= after != before;
    }

    fn marks(&mut self, by: Op) {
        self.relaxed |= by == Op::Abort;
        self.tightened |= by == Op::Claim;
    }
}

fn refused(said: &Said) -> bool {
    said.refusal[0] != 0
}

/// Heaviest's second answer is no worse than its first: both refused alike, or both found and it weighs no less; only
/// where B changed may 16 turn into a run.
fn no_worse(first: &Said, second: &Said, by_bound: bool) -> bool {
    match (refused(first), refused(second)) {
        (false, false) => first.fields[3] <= second.fields[3],
        (true, false) => by_bound && first.refusal == [16, 0, 0],
        _ => first.refusal == second.refusal,
    }
}

/// Heaviest before and after what came between. Where that was of both directions nothing is promised.
fn weighs(since: &Since, before: &Said, after: &Said) -> bool {
    match (since.relaxed, since.tightened) {
        (false, false) => before == after,
        (true, false) => no_worse(before, after, since.bound),
        (false, true) => no_worse(after, before, since.bound),
        (true, true) => true,
    }
}

fn between(since: &Since) -> &'static str {
    match (since.relaxed, since.tightened) {
        (true, false) => "relaxing (a larger B, an abort) hurts",
        (false, true) => "tightening (a smaller B, a claim) helps",
        _ => "an answer changes, though nothing came between that may change it",
    }
}

/// The rows of a page, 16 bytes each, and how many rows the list has in all.
fn page(said: &Said) -> (Vec<&[u16]>, i128) {
    let [written, left] = said.fields[..] else { panic!("two fields") };
    let bytes = said.memory.as_ref().expect("lent bytes");
    (bytes.chunks(16).take(written as usize).collect(), written + left)
}

/// A row's two nodes, by which rows are ordered.
fn pair(row: &[u16]) -> [u16; 2] {
    [row[0] + 256 * row[1], row[2] + 256 * row[3]]
}

/// The lower floor's list contains the higher floor's in order. Of a list that goes on after its page this shows as far
/// as the page goes.
fn contains(lower: &Said, higher: &Said) -> bool {
    if refused(lower) || refused(higher) {
        return lower.refusal == higher.refusal;
    }
    let ((low, many), (high, fewer)) = (page(lower), page(higher));
    let whole = low.len() as i128 == many;
    let shown = |row: &[u16]| whole || low.last().is_some_and(|last| pair(row) <= pair(last));
    let mut rest = low.iter();
    fewer <= many && high.into_iter().filter(|row| shown(row)).all(|row| rest.any(|other| *other == row))
}

/// Two listings from one starting pair into as many bytes.
fn lists(one: Told, other: Told) -> bool {
    let floor = |(ask, _): Told| ask.x as i64;
    let from = |(ask, _): Told| (ask.a, ask.b, ask.lent);
    from(one) != from(other)
        || match floor(one).cmp(&floor(other)) {
            Less => contains(one.1, other.1),
            Equal => one.1 == other.1,
            Greater => contains(other.1, one.1),
        }
}

fn told(why: &str, lines: &[Told]) -> Option<String> {
    let lines: String = lines.iter().map(|(ask, said)| format!("\n    {}", ask.line(said))).collect();
    Some(format!("{why}:{lines}"))
}

/// What was asked before of one table: the last answer to heaviest and what came since, and the listings of the table
/// and the marks as they are now.
#[derive(Default)]
struct Before<'a> {
    since: Since,
    heaviest: Option<Told<'a>>,
    listings: Vec<Told<'a>>,
}

impl<'a> Before<'a> {
    /// Where an answer breaks it.
    fn broken(&mut self, now: Told<'a>) -> Option<String> {
        match now.0.op {
            Op::Heaviest => {
                if let Some(before) = self.heaviest.filter(|before| !weighs(&self.since, before.1, now.1)) {
                    return told(between(&self.since), &[before, now]);
                }
                (self.heaviest, self.since) = (Some(now), Since::default());
            }
            Op::Listing => {
                if let Some(before) = self.listings.iter().find(|before| !lists(**before, now)) {
                    return told("the lower floor's list does not contain the higher floor's", &[*before, now]);
                }
                self.listings.push(now);
            }
            _ => {}
        }
        None
    }
}

/// Where the answers of a case break it: how, and the lines that do. The changed table is another one than the table:
/// its answers are compared among themselves. Both have one B and one set of marks; a claim along the one's path marks
/// what is free for the other too.
pub fn broken(case: &Case, answers: &[Said]) -> Option<String> {
    let (mut table, mut marks) = (case.table.clone(), &case.marks);
    let (mut own, mut changed) = (Before::default(), Before::default());
    for now @ (ask, said) in case.asks.iter().zip(answers) {
        match ask.op {
            Op::Bound => {
                let before = net::bound_in(&table);
                net::set_bound(&mut table, ask.x as u32);
                for of in [&mut own, &mut changed] {
                    of.since.bound(before, net::bound_in(&table));
                    of.listings.clear();
                }
            }
            Op::Claim | Op::Commit | Op::Abort => {
                let after = said.memory.as_ref().expect("the marks");
                if after != marks {
                    if refused(said) {
                        return told("it is refused, and yet the marks change", &[now]);
                    }
                    for of in [&mut own, &mut changed] {
                        of.since.marks(ask.op);
                        of.listings.clear();
                    }
                    marks = after;
                }
            }
            _ => {
                let of = if ask.with { &mut changed } else { &mut own };
                if let Some(why) = of.broken(now) {
                    return Some(why);
                }
            }
        }
    }
    None
}
