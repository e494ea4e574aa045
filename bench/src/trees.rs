//! The tree's calls beside plain Rust: questions by a scan of the runs and by a `BTreeMap`, changes on a `BTreeMap` of runs with merging.

use crate::loads::Random;
use crate::timing::timed;
use crate::verified;
use std::collections::BTreeMap;
use std::hint::black_box;

/// The words of a tree, and the word where its second half begins.
pub const WORDS: usize = 32768;
const HALF: u64 = 16384;

/// The numbers of runs that are measured.
pub const RUNS: [u64; 3] = [1, 32, 1024];

/// The questions of one batch.
const BATCH: usize = 1000;

/// The greatest path number.
const MOST: u64 = 1 << 62;

/// Runs as a map from low to high, neither overlapping nor adjacent.
#[derive(Default)]
struct Runs(BTreeMap<u64, u64>);

impl Runs {
    /// The least run that ends at a number or above.
    fn reaching(&self, number: u64) -> Option<(u64, u64)> {
        let before = self.0.range(..=number).next_back().filter(|(_, high)| number <= **high);
        before.or_else(|| self.0.range(number..).next()).map(|(low, high)| (*low, *high))
    }

    /// Inserts a run, merged with those that it touches.
    fn insert(&mut self, low: u64, high: u64) -> Result<(), u32> {
        if low == 0 || high < low || MOST < high {
            return Err(41);
        }
        let first = self.reaching(low - 1).filter(|run| run.0 <= high + 1);
        if first.is_none() && self.0.len() == 1024 {
            return Err(51);
        }
        let (mut least, mut most) = (low, high);
        while let Some((from, to)) = self.reaching(low - 1).filter(|run| run.0 <= high + 1) {
            self.0.remove(&from);
            (least, most) = (least.min(from), most.max(to));
        }
        self.0.insert(least, most);
        Ok(())
    }

    /// Deletes a stored run.
    fn delete(&mut self, low: u64, high: u64) -> Result<(), u32> {
        if low == 0 || high < low || MOST < high {
            return Err(41);
        }
        if self.0.get(&low) != Some(&high) {
            return Err(60);
        }
        self.0.remove(&low);
        Ok(())
    }

    /// The least overlapping run, else the adjacent one with the least low.
    fn search(&self, low: u64, high: u64) -> Result<Option<(u64, u64)>, u32> {
        if low == 0 || high < low || MOST < high {
            return Err(41);
        }
        let overlapping = self.reaching(low).filter(|run| run.0 <= high);
        Ok(overlapping.or_else(|| self.reaching(low - 1).filter(|run| run.0 <= high + 1)))
    }

    /// Whether a number is held.
    fn holds(&self, number: u64) -> bool {
        self.0.range(..=number).next_back().is_some_and(|(_, high)| number <= *high)
    }

    /// How many numbers are held.
    fn total(&self) -> u64 {
        self.0.iter().map(|(low, high)| high - low + 1).sum()
    }
}

/// A number below a limit.
fn below(random: &mut Random, limit: u64) -> u64 {
    random.below(limit as usize) as u64
}

/// An empty tree in words of any content.
fn empty_tree() -> Vec<u64> {
    let mut tree = vec![0xA5A5; WORDS];
    verified::tree_empty(&mut tree).expect("32,768 words");
    tree
}

/// Equal answers to random changes and questions on trees of few and of many runs; how many were compared.
pub fn compare(random: &mut Random) -> usize {
    let mut compared = 0;
    for (numbers, changes) in [(12, 4_000), (300, 6_000), (6_000, 12_000)] {
        let (mut tree, mut runs) = (empty_tree(), Runs::default());
        for _ in 0..changes {
            let low = below(random, numbers);
            let high = low + below(random, 4);
            assert_eq!(verified::tree_insert(&mut tree, low, high), runs.insert(low, high));
            if below(random, 3) == 0 {
                let (low, high) = runs.reaching(below(random, numbers)).unwrap_or((1, 1));
                assert_eq!(verified::tree_delete(&mut tree, low, high), runs.delete(low, high));
            }
            let (low, high) = (below(random, numbers), below(random, numbers));
            assert_eq!(verified::tree_delete(&mut tree, low, high), runs.delete(low, high));
            assert_eq!(verified::tree_search(&tree, low, high), runs.search(low, high));
            assert_eq!(verified::tree_total(&tree), Ok(runs.total()));
            let (held, visited) = verified::tree_holds(&tree, low + 1).expect("a path number");
            assert_eq!(held, runs.holds(low + 1));
            assert_eq!(visited == 0, runs.0.is_empty());
            assert!(visited <= 1 + u64::from(runs.0.len().max(1).ilog2()));
            compared += 5;
        }
    }
    compared
}

/// A tree of so many runs of ten numbers, a hundred apart, and the same runs as a list and as a map.
struct Filled {
    tree: Vec<u64>,
    list: Vec<(u64, u64)>,
    map: Runs,
}

fn filled(runs: u64) -> Filled {
    let mut all = Filled { tree: empty_tree(), list: Vec::new(), map: Runs::default() };
    for place in 0..runs {
        let (low, high) = (100 * place + 50, 100 * place + 59);
        verified::tree_insert(&mut all.tree, low, high).expect("a run that fits");
        all.map.insert(low, high).expect("a run that fits");
        all.list.push((low, high));
    }
    all
}

/// Whether a number is held, by a scan of the runs up to the first that ends at it or above.
#[inline(never)]
fn scan(list: &[(u64, u64)], number: u64) -> bool {
    list.iter().find(|run| number <= run.1).is_some_and(|run| run.0 <= number)
}

/// The time of one question, in nanoseconds: by the call, by the call for many, by a scan and by a map.
pub struct Questions {
    pub holds: f64,
    pub each: f64,
    pub scan: f64,
    pub map: f64,
    pub visited: u64,
}

/// Questions on a tree of so many runs, the numbers drawn from all that lie up to the last run.
pub fn questions(runs: u64, repeats: usize, random: &mut Random) -> Questions {
    let Filled { tree, list, map } = filled(runs);
    let numbers: Vec<u64> = (0..BATCH).map(|_| 1 + below(random, 100 * runs)).collect();
    let mut answers = vec![0; BATCH];
    let visited = verified::tree_holds_each(&tree, &numbers, &mut answers).expect("a tree");
    for (number, answer) in numbers.iter().zip(&answers) {
        let held = *answer == 1;
        assert_eq!((held, visited), verified::tree_holds(&tree, *number).expect("a path number"));
        assert_eq!((held, held), (scan(&list, *number), map.holds(*number)));
    }
    let mut least = Questions { holds: f64::MAX, each: f64::MAX, scan: f64::MAX, map: f64::MAX, visited };
    for _ in 0..repeats {
        let one = |answer: &mut dyn FnMut(u64) -> bool| {
            timed(|| {
                numbers.iter().for_each(|number| {
                    black_box(answer(black_box(*number)));
                })
            }) / BATCH as f64
        };
        least.holds = least.holds.min(one(&mut |number| verified::tree_holds(&tree, number).expect("a path number").0));
        least.scan = least.scan.min(one(&mut |number| scan(&list, number)));
        least.map = least.map.min(one(&mut |number| map.holds(number)));
        let batch = timed(|| {
            for _ in 0..100 {
                verified::tree_holds_each(&tree, black_box(&numbers), black_box(&mut answers)).expect("a tree");
            }
        });
        least.each = least.each.min(batch / (100 * BATCH) as f64);
    }
    least
}

/// The time of one change, in nanoseconds, by the call and on a map, and how many of the changes copied the tree into the other half.
pub struct Changes {
    pub tree: f64,
    pub map: f64,
    pub changes: usize,
    pub copies: usize,
}

/// A run inserted and another deleted in turn, so that a tree of so many runs, at the most, stays as large; none may be refused.
pub fn changes(runs: u64, turns: usize, random: &mut Random) -> Changes {
    let Filled { mut tree, mut map, .. } = filled(runs);
    let places: Vec<u64> = (0..turns).map(|_| below(random, runs)).collect();
    let mut copies = 0;
    for place in &places {
        let (low, high) = (100 * place + 50, 100 * place + 59);
        let half = tree[1] < HALF;
        verified::tree_delete(&mut tree, low, high).expect("a stored run");
        copies += usize::from(tree[0] != 0 && half != (tree[1] < HALF));
        let half = tree[1] < HALF;
        verified::tree_insert(&mut tree, low, high).expect("a run that fits");
        copies += usize::from(half != (tree[1] < HALF));
    }
    let pass = |change: &mut dyn FnMut(u64, u64)| {
        timed(|| places.iter().for_each(|place| change(100 * place + 50, 100 * place + 59))) / (2 * turns) as f64
    };
    let by_tree = pass(&mut |low, high| {
        verified::tree_delete(&mut tree, low, high).expect("a stored run");
        verified::tree_insert(&mut tree, low, high).expect("a run that fits");
    });
    let by_map = pass(&mut |low, high| {
        map.delete(low, high).expect("a stored run");
        map.insert(low, high).expect("a run that fits");
    });
    assert_eq!(verified::tree_total(&tree), Ok(10 * runs));
    Changes { tree: by_tree, map: by_map, changes: 2 * turns, copies }
}
