//! The peer's store: the runs of both edges in memory, what a test adds to them, and the report.

use crate::peer::{Judge, MAX_TESTS, RUNS, Runs};
use crate::peer_netlist::{Netlist, place, u16_at};

const REPORT_HEAD: usize = 34;
const HEAD_WORDS: usize = 3;

/// The word with the number of tests taken.
pub const TESTS: usize = 2;

/// The runs of one edge, and how many faults they hold.
pub struct Edge {
    pub len: usize,
    pub faults: u64,
    pub runs: Box<Runs>,
}

impl Edge {
    /// The first run from place `at` on whose high is at least `number`: a few steps forward, then by halves.
    #[inline]
    fn seek(&self, at: usize, number: u64) -> usize {
        let mut low = at;
        let near = (at + 4).min(self.len);
        while low < near {
            if self.runs[2 * low + 1] >= number {
                return low;
            }
            low += 1;
        }
        let mut high = self.len;
        while low < high {
            let middle = (low + high) / 2;
            if self.runs[2 * middle + 1] >= number {
                high = middle;
            } else {
                low = middle + 1;
            }
        }
        low
    }

    /// Takes an edge's runs over from a store's words; whether they are ascending, apart and within 1 to `total`.
    fn read(&mut self, words: &[u64], total: u64) -> bool {
        let mut least = 1;
        let mut good = true;
        self.faults = 0;
        for run in words.chunks_exact(2) {
            let (low, high) = (run[0], run[1]);
            good &= least <= low && low <= high && high <= total;
            least = high.wrapping_add(2);
            self.faults = self.faults.wrapping_add(high.wrapping_sub(low).wrapping_add(1));
        }
        self.len = words.len() / 2;
        self.runs[..words.len()].copy_from_slice(words);
        good
    }
}

/// Both edges of a store, and the tests taken.
pub struct Store {
    pub edges: [Edge; 2],
    pub tests: u64,
}

impl Store {
    pub fn empty() -> Store {
        Store { edges: [0, 1].map(|_| Edge { len: 0, faults: 0, runs: Box::new([0; 2 * RUNS]) }), tests: 0 }
    }

    /// Reads the words of a store, with every check.
    pub fn read(&mut self, words: &[u64], total: u64) -> Result<(), u32> {
        if words[0] > RUNS as u64 || words[1] > RUNS as u64 || words[TESTS] > MAX_TESTS {
            return Err(40);
        }
        let parts = words[HEAD_WORDS..].split_at(2 * RUNS);
        let used = [words[0], words[1]].map(|runs| 2 * runs as usize);
        let [rising, falling] = &mut self.edges;
        if !rising.read(&parts.0[..used[0]], total) || !falling.read(&parts.1[..used[1]], total) {
            return Err(41);
        }
        self.tests = words[TESTS];
        if self.tests == 0 && used != [0, 0] {
            return Err(41);
        }
        // No early end, so that the words are read in vectors.
        let zero = |words: &[u64]| words.iter().fold(0, |seen, word| seen | word) == 0;
        if zero(&parts.0[used[0]..]) && zero(&parts.1[used[1]..]) { Ok(()) } else { Err(42) }
    }

    /// Writes the words of a store.
    pub fn write(&self, words: &mut [u64]) {
        let (counts, parts) = words.split_at_mut(HEAD_WORDS);
        counts[TESTS] = self.tests;
        for ((edge, count), part) in self.edges.iter().zip(counts).zip(parts.chunks_exact_mut(2 * RUNS)) {
            *count = edge.len as u64;
            part[..2 * edge.len].copy_from_slice(&edge.runs[..2 * edge.len]);
            part[2 * edge.len..].fill(0);
        }
    }

    /// The report of so many tests.
    fn report(&self, netlist: &Netlist, tests: u32) -> Vec<u8> {
        let runs = self.edges[0].len + self.edges[1].len;
        let mut report = Vec::with_capacity(REPORT_HEAD + 16 * runs);
        report.extend_from_slice(b"RP");
        report.extend_from_slice(&tests.to_le_bytes());
        report.extend_from_slice(&netlist.total.to_le_bytes());
        self.edges.iter().for_each(|edge| report.extend_from_slice(&(edge.len as u16).to_le_bytes()));
        self.edges.iter().for_each(|edge| report.extend_from_slice(&edge.faults.to_le_bytes()));
        for edge in &self.edges {
            edge.runs[..2 * edge.len].iter().for_each(|word| report.extend_from_slice(&word.to_le_bytes()));
        }
        report
    }
}

/// Whether a report is the true one of a store after so many tests.
pub fn compare(netlist: &Netlist, store: &Store, tests: u32, report: &[u8]) -> Result<(), u32> {
    if report.len() < REPORT_HEAD || &report[..2] != b"RP" {
        return Err(70);
    }
    if report.len() != REPORT_HEAD + 16 * (u16_at(report, 14) + u16_at(report, 16)) {
        return Err(71);
    }
    if report == store.report(netlist, tests) { Ok(()) } else { Err(72) }
}

/// The union of held and found runs as far as it is made.
struct Union<'a> {
    held: &'a Edge,
    /// The first held run that is not yet taken over.
    next: usize,
    list: &'a mut Runs,
    len: usize,
    /// The last run, which may grow.
    last: Option<(u64, u64)>,
    /// The faults found that are not held.
    new: u64,
}

impl Union<'_> {
    /// Puts the last run on the list.
    fn close(&mut self) -> Result<(), u32> {
        if let Some((low, high)) = self.last.take() {
            if self.len == RUNS {
                return Err(51);
            }
            self.list[2 * self.len] = low;
            self.list[2 * self.len + 1] = high;
            self.len += 1;
        }
        Ok(())
    }

    /// Puts the held runs before a place on the list.
    fn copy(&mut self, end: usize) -> Result<(), u32> {
        let len = self.len + (end - self.next);
        if len > RUNS {
            return Err(51);
        }
        self.list[2 * self.len..2 * len].copy_from_slice(&self.held.runs[2 * self.next..2 * end]);
        (self.len, self.next) = (len, end);
        Ok(())
    }

    /// Joins a found run, which lies above the found runs before it.
    fn join(&mut self, found: (u64, u64)) -> Result<(), u32> {
        let (mut low, mut high) = found;
        match self.last {
            Some((_, end)) if high <= end => return Ok(()),
            Some((start, end)) if low <= end + 1 => {
                self.new += high - end.max(low - 1);
                low = start;
            }
            _ => {
                self.new += high - low + 1;
                self.close()?;
            }
        }
        self.copy(self.held.seek(self.next, low - 1))?;
        while self.next < self.held.len && self.held.runs[2 * self.next] <= high + 1 {
            let (start, end) = (self.held.runs[2 * self.next], self.held.runs[2 * self.next + 1]);
            let (from, to) = (start.max(found.0), end.min(found.1));
            if from <= to {
                self.new -= to - from + 1;
            }
            (low, high) = (low.min(start), high.max(end));
            self.next += 1;
        }
        self.last = Some((low, high));
        Ok(())
    }

    /// Takes the rest over: the number of runs, and of new faults.
    fn finish(mut self) -> Result<(usize, u64), u32> {
        self.close()?;
        self.copy(self.held.len)?;
        Ok((self.len, self.new))
    }
}

impl Judge {
    /// Whether every run found at the outputs lies in a held one.
    #[inline]
    fn nothing_new(&self, netlist: &Netlist, edge: usize, held: &Edge) -> bool {
        let work = &self.work[edge];
        let mut at = 0;
        for (net, offset) in netlist.output_nets.iter().zip(&netlist.output_offsets) {
            if self.flags[place(*net)] & 2 << edge == 0 {
                continue;
            }
            let (begin, end) = work.parts[place(*net)];
            for run in begin as usize..end as usize {
                let (low, high) = (work.runs[2 * run] + offset, work.runs[2 * run + 1] + offset);
                at = held.seek(at, high);
                if at == held.len || held.runs[2 * at] > low {
                    return false;
                }
            }
        }
        true
    }

    /// The union of an edge's held runs with those found at the outputs.
    fn join(&mut self, netlist: &Netlist, edge: usize, held: &Edge) -> Result<(usize, u64), u32> {
        let work = &self.work[edge];
        let mut union = Union { held, next: 0, list: &mut self.fresh[edge], len: 0, last: None, new: 0 };
        for (net, offset) in netlist.output_nets.iter().zip(&netlist.output_offsets) {
            if self.flags[place(*net)] & 2 << edge == 0 {
                continue;
            }
            let (begin, end) = work.parts[place(*net)];
            for run in begin as usize..end as usize {
                union.join((work.runs[2 * run] + offset, work.runs[2 * run + 1] + offset))?;
            }
        }
        union.finish()
    }

    /// Adds what a test found to a store, unless an edge has too many runs: the new faults of each edge.
    pub fn add(&mut self, netlist: &Netlist, store: &mut Store) -> Result<[u64; 2], u32> {
        let mut unions = [None; 2];
        for (edge, held) in store.edges.iter().enumerate() {
            if self.work[edge].len != 0 && !self.nothing_new(netlist, edge, held) {
                unions[edge] = Some(self.join(netlist, edge, held)?);
            }
        }
        let mut news = [0; 2];
        for (edge, held) in store.edges.iter_mut().enumerate() {
            if let Some((len, new)) = unions[edge] {
                held.runs[..2 * len].copy_from_slice(&self.fresh[edge][..2 * len]);
                held.len = len;
                held.faults += new;
                news[edge] = new;
            }
        }
        store.tests += 1;
        Ok(news)
    }
}
