// A port of PATTERNTRACK (source document 001, algorithms 3 and 4): one greatest partial tuple per permutation of a subset of the slots.
//
// What was done to make it fast: nothing is allocated per event; a clock is a 16-bit count per thread, so that joins and comparisons are of whole
// vectors; a clock is kept per thread, variable and lock instead of per label, as the dependent labels share it; which permutations end in
// which label is worked out once per pattern; tuples lie in arrays by length, so that their copies have fixed sizes; the test of a tuple
// stops at the first event that comes before the new one; a full permutation is tested and never stored; once there is a match only the
// checks of the log go on.
use crate::clocks::{key, key_of_slot, Clock, Clocks};
use crate::decode::{self, Event};
use crate::reference::{self, Label};
use crate::verdict::{found, Outcome, SLOTS, THREADS};

/// The most permutations of one length.
const MOST: usize = 120;

/// A permutation that ends in the label at hand: its place among those of its length, the place of what stands before its last slot, and
/// which places of that hold slots after its last slot.
#[derive(Clone, Copy)]
struct Node {
    parent: u8,
    place: u8,
    later: u8,
}

/// For each label of the pattern, its permutations by length.
struct Plan {
    slots: usize,
    labels: Vec<u32>,
    nodes: Vec<[Vec<Node>; SLOTS + 1]>,
}

/// The greatest partial tuples of one length, as the clocks of their events in the order of arrival.
struct Level<const N: usize> {
    present: [bool; MOST],
    tuples: [[Clock; N]; MOST],
}

struct Tracker {
    clocks: Clocks,
    plan: Plan,
    one: Level<1>,
    two: Level<2>,
    three: Level<3>,
    four: Level<4>,
}

/// Whether the event of clock `a` comes before or is that of clock `b`. Every lane is compared, so that the clock stays whole vectors.
#[inline(always)]
fn below(a: &Clock, b: &Clock) -> bool {
    let mut over = 0;
    for i in 0..THREADS {
        over |= a[i].saturating_sub(b[i]);
    }
    over == 0
}

impl Plan {
    fn new(pattern: &[Label]) -> Plan {
        let keys: Vec<u32> = pattern.iter().map(|&slot| key_of_slot(slot)).collect();
        let mut plan = Plan { slots: keys.len(), labels: Vec::new(), nodes: Vec::new() };
        for &k in &keys {
            if !plan.labels.contains(&k) {
                plan.labels.push(k);
                plan.nodes.push(std::array::from_fn(|_| Vec::with_capacity(MOST)));
            }
        }
        plan.grow(&keys, &mut [0; SLOTS + 1], &mut Vec::new(), 0);
        plan
    }

    /// Adds every permutation that goes on from `prefix`, whose place among those of its length is `parent`.
    fn grow(&mut self, keys: &[u32], next: &mut [u8; SLOTS + 1], prefix: &mut Vec<usize>, parent: u8) {
        for slot in 0..keys.len() {
            if prefix.contains(&slot) {
                continue;
            }
            let length = prefix.len() + 1;
            let place = next[length];
            next[length] += 1;
            let later = prefix.iter().enumerate().map(|(i, &s)| u8::from(s > slot) << i).sum();
            let label = self.labels.iter().position(|&k| k == keys[slot]).unwrap();
            self.nodes[label][length].push(Node { parent, place, later });
            prefix.push(slot);
            self.grow(keys, next, prefix, place);
            prefix.pop();
        }
    }
}

impl<const N: usize> Level<N> {
    fn new() -> Level<N> {
        Level { present: [false; MOST], tuples: [[[0; THREADS]; N]; MOST] }
    }

    /// Whether the node's parent has a tuple that stays admissible with the event of clock `f` put last.
    #[inline(always)]
    fn admits(&self, node: Node, f: &Clock) -> bool {
        let parent = node.parent as usize;
        if !self.present[parent] {
            return false;
        }
        let tuple = &self.tuples[parent];
        for i in 0..N {
            if node.later >> i & 1 == 1 && below(&tuple[i], f) {
                return false;
            }
        }
        true
    }

    /// Makes the tuples of the next length from these.
    #[inline(always)]
    fn extend<const M: usize>(&self, nodes: &[Node], f: &Clock, longer: &mut Level<M>) {
        for &node in nodes {
            if self.admits(node, f) {
                let place = node.place as usize;
                longer.present[place] = true;
                longer.tuples[place][..N].copy_from_slice(&self.tuples[node.parent as usize]);
                longer.tuples[place][N] = *f;
            }
        }
    }
}

impl Tracker {
    fn new(pattern: &[Label]) -> Tracker {
        Tracker {
            clocks: Clocks::new(),
            plan: Plan::new(pattern),
            one: Level::new(),
            two: Level::new(),
            three: Level::new(),
            four: Level::new(),
        }
    }

    /// Takes one event; whether it completes a match.
    #[inline(always)]
    fn take(&mut self, e: Event) -> bool {
        let f = self.clocks.advance(e);
        let k = key(e);
        match self.plan.labels.iter().position(|&label| label == k) {
            Some(label) => self.offer(label, &f),
            None => false,
        }
    }

    /// Longest first, so that every tuple is made from one that lacks the new event.
    fn offer(&mut self, label: usize, f: &Clock) -> bool {
        let slots = self.plan.slots;
        let [_, ones, twos, threes, fours, fives] = &self.plan.nodes[label];
        let complete = match slots {
            1 => true,
            2 => twos.iter().any(|&n| self.one.admits(n, f)),
            3 => threes.iter().any(|&n| self.two.admits(n, f)),
            4 => fours.iter().any(|&n| self.three.admits(n, f)),
            _ => fives.iter().any(|&n| self.four.admits(n, f)),
        };
        if complete {
            return true;
        }
        self.three.extend(fours, f, &mut self.four);
        self.two.extend(threes, f, &mut self.three);
        self.one.extend(twos, f, &mut self.two);
        for node in ones {
            self.one.present[node.place as usize] = true;
            self.one.tuples[node.place as usize] = [*f];
        }
        false
    }
}

/// Judges a log from bytes: match or none, the count, or the refusal.
#[inline(never)]
pub fn run(pattern: &[u8], log: &[u8]) -> Outcome {
    let slots = match reference::read_pattern(pattern) {
        Ok(slots) => slots,
        Err(refusal) => return Outcome::PatternRefused(refusal),
    };
    let mut tracker = Tracker::new(&slots);
    let mut count = 0;
    let end = decode::each(log, |n, event| {
        if count == 0 && tracker.take(event) {
            count = n;
        }
    });
    match end {
        Ok(_) => found(count),
        Err(refusal) => Outcome::LogRefused(refusal),
    }
}
