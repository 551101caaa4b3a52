// The automata of crates/trans_auto in plain Rust: the same masks, cells and order of work, with bounds checks and
// wrapping sums as rustc writes them. Its words and what it prints are those of crates/bench.
use std::env;

#[derive(Clone, Copy)]
#[allow(dead_code)]
enum Repeat {
    Once,
    Consec { low: u32, high: u32 },
    Goto { low: u32, high: u32 },
    NonConsec { low: u32, high: u32 },
}

struct ValueSet {
    intervals: Vec<(i128, i128)>,
}

impl ValueSet {
    fn place_of(&self, v: i128) -> usize {
        let mut base = 0;
        let mut size = self.intervals.len();
        while size > 1 {
            let half = size / 2;
            base += half * (((self.intervals[base + half].0 - v - 1) as u128 >> 127) as usize);
            size -= half;
        }
        base
    }

    fn contains(&self, v: i128) -> bool {
        if self.intervals.is_empty() {
            return false;
        }
        let range = self.intervals[self.place_of(v)];
        (range.0 <= v) & (v <= range.1)
    }
}

struct Item {
    set: ValueSet,
    repeat: Repeat,
}

type Seq = Vec<Item>;

impl Repeat {
    fn cells(self) -> u32 {
        match self {
            Repeat::Once => 1,
            Repeat::Consec { high, .. } => high,
            Repeat::Goto { high, .. } => 2 * high,
            Repeat::NonConsec { high, .. } => 2 * high + 1,
        }
    }

    fn is_run(self) -> bool {
        matches!(self, Repeat::Once | Repeat::Consec { .. })
    }

    fn is_done(self, last: bool, k: u32) -> bool {
        match self {
            Repeat::Once => true,
            Repeat::Consec { low, .. } => low <= k + 1,
            Repeat::Goto { low, .. } => k % 2 == 1 && low <= (k + 1) / 2,
            Repeat::NonConsec { low, .. } => (k % 2 == 1 || !last) && low <= (k + 1) / 2,
        }
    }

    fn skips(self) -> bool {
        match self {
            Repeat::Once => false,
            Repeat::Consec { low, .. } | Repeat::Goto { low, .. } | Repeat::NonConsec { low, .. } => low == 0,
        }
    }
}

struct ItemCells {
    all: u128,
    first: u128,
    done: u128,
    skips: bool,
}

impl ItemCells {
    fn leaves(&self, old: u128, enter: bool) -> bool {
        old & self.done != 0 || (self.skips && enter)
    }
}

#[derive(Default)]
struct Masks {
    runs: u128,
    gaps: u128,
    ends: u128,
    later: u128,
}

struct Side {
    seqs: Vec<Seq>,
    cells: Vec<Vec<ItemCells>>,
    masks: Masks,
}

impl Side {
    fn new(seqs: Vec<Seq>) -> Side {
        let mut masks = Masks::default();
        let mut cells = Vec::new();
        let mut base = 0;
        for seq in &seqs {
            let mut of_seq = Vec::new();
            for (i, item) in seq.iter().enumerate() {
                let last = i + 1 == seq.len();
                let mut one = ItemCells { all: 0, first: 0, done: 0, skips: item.repeat.skips() };
                for k in 0..item.repeat.cells() {
                    let bit = 1u128 << (base + k);
                    one.all |= bit;
                    if k == 0 {
                        one.first |= bit;
                    } else {
                        masks.later |= bit;
                    }
                    if item.repeat.is_done(last, k) {
                        one.done |= bit;
                    }
                    if item.repeat.is_run() {
                        masks.runs |= bit;
                    } else if k % 2 == 0 {
                        masks.gaps |= bit;
                    } else {
                        masks.ends |= bit;
                    }
                }
                base += item.repeat.cells();
                of_seq.push(one);
            }
            cells.push(of_seq);
        }
        Side { seqs, cells, masks }
    }

    fn inside(&self, sample: Option<i128>) -> u128 {
        let mut inside = 0;
        for (seq, cells) in self.seqs.iter().zip(&self.cells) {
            for (item, one) in seq.iter().zip(cells) {
                if sample.is_some_and(|v| item.set.contains(v)) {
                    inside |= one.all;
                }
            }
        }
        inside
    }

    fn step(&self, inside: u128, fresh: bool, old: u128) -> u128 {
        let mut enters = 0;
        for cells in &self.cells {
            let mut enter = fresh;
            for one in cells {
                if enter {
                    enters |= one.first;
                }
                enter = one.leaves(old, enter);
            }
        }
        let masks = &self.masks;
        let before = enters | ((old << 1) & masks.later);
        let open = (before | old) & masks.gaps;
        (before & masks.runs & inside) | ((open << 1) & masks.ends & inside) | (open & !inside)
    }

    fn accepts(&self, mask: u128) -> bool {
        self.cells.iter().any(|cells| cells.iter().fold(false, |enter, one| one.leaves(mask, enter)))
    }
}

struct Automaton {
    own: Side,
    removed: Side,
}

impl Automaton {
    fn step_pair(&self, inside: (u128, u128), fresh: bool, run: (u128, u128)) -> (u128, u128) {
        (self.own.step(inside.0, fresh, run.0), self.removed.step(inside.1, fresh, run.1))
    }

    fn push(&self, runs: &mut Vec<(u128, u128)>, sample: Option<i128>) -> bool {
        let count = runs.len();
        let inside = (self.own.inside(sample), self.removed.inside(sample));
        let begun = self.step_pair(inside, true, (0, 0));
        if begun.0 != 0 {
            runs.push(begun);
        }
        for run in &mut runs[..count] {
            *run = self.step_pair(inside, false, *run);
        }
        runs.retain(|run| run.0 != 0);
        if runs.len() > 1 {
            runs.sort_unstable();
            runs.dedup();
        }
        runs.iter().any(|run| self.own.accepts(run.0) && !self.removed.accepts(run.1))
    }
}

fn item(intervals: Vec<(i128, i128)>, repeat: Repeat) -> Item {
    Item { set: ValueSet { intervals }, repeat }
}

fn steady() -> Vec<Seq> {
    vec![vec![
        item(vec![(1, 1)], Repeat::Once),
        item(vec![(2, 2)], Repeat::NonConsec { low: 1, high: 1 }),
        item(vec![(3, 3)], Repeat::Once),
    ]]
}

/// The numbers below 512 with the bit, as ranges that don't touch.
fn with_bit(bit: u32) -> Vec<(i128, i128)> {
    let width = 1i128 << bit;
    (0..512 / (2 * width)).map(|k| (2 * width * k + width, 2 * width * (k + 1) - 1)).collect()
}

fn hostile() -> Vec<Seq> {
    (0..9)
        .map(|bit| {
            vec![
                item(with_bit(bit), Repeat::Once),
                item(vec![(1000, 1000)], Repeat::Goto { low: 1, high: 1 }),
            ]
        })
        .collect()
}

fn main() {
    let words: Vec<String> = env::args().collect();
    let is_steady = words[1] == "steady";
    let samples: u32 = words[2].parse().unwrap();
    let own = if is_steady { steady() } else { hostile() };
    let automaton = Automaton { own: Side::new(own), removed: Side::new(Vec::new()) };
    let mut runs = Vec::new();
    let (mut count, mut seed) = (0u32, 1u64);
    for k in 0..samples {
        seed = seed.wrapping_mul(6364136223846793005).wrapping_add(1442695040888963407);
        let value = if !is_steady {
            i128::from(seed >> 55)
        } else if k == 0 {
            1
        } else if k == 1 {
            2
        } else {
            3
        };
        if automaton.push(&mut runs, Some(value)) {
            count += 1;
        }
    }
    println!("{count} {}", runs.len());
}
