//! The unverified twin: the library's calls in plain safe Rust. It goes record by record, as the test call does. The benchmark compares every answer
//! with it; the measure of speed is the peer. It shares no code with the proved crates. A refusal is the papers' number.

use std::ops::Range;

pub const STORE_WORDS: usize = 4099;
pub const WORK_WORDS: usize = 8192;
pub const REPORT_BYTES: usize = 32802;
const MAX_NETS: usize = 512;
const MAX_RUNS: usize = 1024;
const HEAD_WORDS: usize = 3;
const TESTS: usize = 2;
const MAX_TESTS: u64 = u32::MAX as u64;
const MAX_COUNT: u64 = 1 << 62;
const NON_ROBUST: u32 = 1;
const ROBUST: u32 = 2;
const REPORT_HEAD: usize = 34;
const RUN_BYTES: usize = 16;

/// A low and a high path number.
type Run = [u64; 2];

/// What a survey returns.
pub struct Survey {
    pub inputs: usize,
    pub gates: usize,
    pub outputs: usize,
    pub total: u64,
    pub counts: [u64; MAX_NETS],
}

/// A pin of a gate, or an output: its net, and the counts of the pins (or outputs) before it.
#[derive(Clone, Copy)]
struct Pin {
    net: u16,
    offset: u64,
}

/// AND with NAND, OR with NOR, and the kinds whose pins are always open: XOR, XNOR and, as parities of one pin, buffer and NOT.
#[derive(Clone, Copy)]
enum Family {
    And,
    Or,
    Parity,
}

#[derive(Clone, Copy)]
struct Gate {
    family: Family,
    inverted: bool,
    first_pin: u16,
    pins: u8,
}

/// A netlist as the test stage uses it.
struct Circuit {
    inputs: usize,
    total: u64,
    gates: Vec<Gate>,
    pins: Vec<Pin>,
    outputs: Vec<Pin>,
}

/// What one record's simulation leaves for the interval work: for each net its state, its open pins and where its runs begin. A state is a word:
/// the value under V2 in the lowest byte, that under V1 in the next, whether the net is steady in the third.
struct Scratch {
    states: [u32; MAX_NETS],
    open: [u8; MAX_NETS],
    starts: [u16; MAX_NETS + 1],
}

/// What is kept of a netlist while it is read: nothing for a survey, the circuit for a test.
trait Keep {
    fn pin(&mut self, net: u16, offset: u64);
    fn gate(&mut self, kind: u8, pins: u8);
    fn output(&mut self, net: u16, offset: u64);
}

impl Keep for () {
    fn pin(&mut self, _: u16, _: u64) {}
    fn gate(&mut self, _: u8, _: u8) {}
    fn output(&mut self, _: u16, _: u64) {}
}

impl Keep for Circuit {
    fn pin(&mut self, net: u16, offset: u64) {
        self.pins.push(Pin { net, offset });
    }

    /// A gate, after its pins.
    fn gate(&mut self, kind: u8, pins: u8) {
        let (family, inverted) = match kind {
            3 => (Family::And, false),
            4 => (Family::And, true),
            5 => (Family::Or, false),
            6 => (Family::Or, true),
            1 | 7 => (Family::Parity, false),
            _ => (Family::Parity, true),
        };
        let first_pin = (self.pins.len() - pins as usize) as u16;
        self.gates.push(Gate { family, inverted, first_pin, pins });
    }

    fn output(&mut self, net: u16, offset: u64) {
        self.outputs.push(Pin { net, offset });
    }
}

// ---------------------------------------------------------------------------------------------- netlist

/// The header's numbers, with the counts of the inputs.
fn read_header(netlist: &[u8]) -> Result<Survey, u32> {
    let [0x4E, 0x4C, i0, i1, g0, g1, u0, u1, ..] = *netlist else {
        return Err(10);
    };
    let inputs = u16::from_le_bytes([i0, i1]) as usize;
    let gates = u16::from_le_bytes([g0, g1]) as usize;
    let outputs = u16::from_le_bytes([u0, u1]) as usize;
    if !(1..=64).contains(&inputs) || gates > 511 || inputs + gates > MAX_NETS || !(1..=64).contains(&outputs) {
        return Err(11);
    }
    let mut counts = [0; MAX_NETS];
    counts[..inputs].fill(1);
    Ok(Survey { inputs, gates, outputs, total: 0, counts })
}

/// One gate, which drives `net`: its count and the bytes after it.
fn read_gate<'a>(
    part: &'a [u8],
    net: usize,
    counts: &[u64; MAX_NETS],
    keep: &mut impl Keep,
) -> Result<(u64, &'a [u8]), u32> {
    let [0x47, 0x54, kind, pins, rest @ ..] = part else {
        return Err(12);
    };
    let allowed = match kind {
        1 | 2 => 1..=1,
        3..=8 => 1..=8,
        _ => return Err(13),
    };
    if !allowed.contains(pins) {
        return Err(14);
    }
    let (nets, rest) = rest.split_at_checked(2 * *pins as usize).ok_or(12u32)?;
    let mut sum: u64 = 0;
    for pin in nets.chunks_exact(2) {
        let from = u16::from_le_bytes([pin[0], pin[1]]);
        if from as usize >= net {
            return Err(15);
        }
        keep.pin(from, sum);
        sum = sum.saturating_add(counts[from as usize]);
    }
    if sum > MAX_COUNT {
        return Err(17);
    }
    keep.gate(*kind, *pins);
    Ok((sum, rest))
}

/// The outputs and the end of the file: the total.
fn read_outputs(mut part: &[u8], survey: &Survey, keep: &mut impl Keep) -> Result<u64, u32> {
    let mut lowest = 0;
    let mut total = 0;
    for _ in 0..survey.outputs {
        let [0x4F, 0x55, n0, n1, rest @ ..] = part else {
            return Err(18);
        };
        let net = u16::from_le_bytes([*n0, *n1]);
        let place = net as usize;
        if place >= survey.inputs + survey.gates || place < lowest {
            return Err(19);
        }
        // An output that is an input net is a wire without a gate: it has no path.
        if place >= survey.inputs {
            keep.output(net, total);
            total += survey.counts[place];
        }
        if total > MAX_COUNT {
            return Err(21);
        }
        lowest = place + 1;
        part = rest;
    }
    if part.is_empty() { Ok(total) } else { Err(20) }
}

/// A whole netlist.
fn read_netlist(netlist: &[u8], keep: &mut impl Keep) -> Result<Survey, u32> {
    let mut survey = read_header(netlist)?;
    let mut rest = &netlist[8..];
    for net in survey.inputs..survey.inputs + survey.gates {
        (survey.counts[net], rest) = read_gate(rest, net, &survey.counts, keep)?;
    }
    survey.total = read_outputs(rest, &survey, keep)?;
    Ok(survey)
}

/// The survey.
pub fn survey(netlist: &[u8]) -> Result<Survey, u32> {
    read_netlist(netlist, &mut ())
}

/// The circuit of a netlist, decoded once for each call that simulates.
fn load(netlist: &[u8]) -> Result<Circuit, u32> {
    let mut circuit = Circuit {
        inputs: 0,
        total: 0,
        gates: Vec::with_capacity(MAX_NETS),
        pins: Vec::with_capacity(netlist.len() / 2),
        outputs: Vec::with_capacity(64),
    };
    let survey = read_netlist(netlist, &mut circuit)?;
    circuit.inputs = survey.inputs;
    circuit.total = survey.total;
    Ok(circuit)
}

// ---------------------------------------------------------------------------------------------- runs

/// Adds runs, shifted, to a list of `len` runs. They lie above the list's, so that only the first may be adjacent. None: no room.
fn append_shifted(list: &mut [Run], len: usize, mut added: &[Run], offset: u64) -> Option<usize> {
    if let ([.., last], [first, rest @ ..]) = (&mut list[..len], added)
        && last[1] + 1 == first[0] + offset
    {
        last[1] = first[1] + offset;
        added = rest;
    }
    let free = list.get_mut(len..len + added.len())?;
    for (to, from) in free.iter_mut().zip(added) {
        *to = [from[0] + offset, from[1] + offset];
    }
    Some(len + added.len())
}

/// Whether every found run lies in a held one.
fn all_held(mut held: &[Run], found: &[Run]) -> bool {
    let Some(first) = found.first() else { return true };
    held = &held[held.partition_point(|at| at[1] < first[0])..];
    for run in found {
        while let [first, rest @ ..] = held
            && first[1] < run[0]
        {
            held = rest;
        }
        if !held.first().is_some_and(|at| at[0] <= run[0] && run[1] <= at[1]) {
            return false;
        }
    }
    true
}

/// The union of two lists of runs. None: no room.
fn union(held: &[Run], found: &[Run], list: &mut [Run]) -> Option<usize> {
    let (mut held, mut found) = (held.iter().peekable(), found.iter().peekable());
    let mut len = 0;
    loop {
        let run = match (held.peek(), found.peek()) {
            (Some(h), Some(f)) if h[0] <= f[0] => held.next(),
            (Some(_), None) => held.next(),
            _ => found.next(),
        };
        let Some(run) = run else {
            return Some(len);
        };
        if len > 0 && run[0] <= list[len - 1][1] + 1 {
            list[len - 1][1] = list[len - 1][1].max(run[1]);
        } else {
            *list.get_mut(len)? = *run;
            len += 1;
        }
    }
}

/// How many path numbers lie in runs.
fn size(runs: &[Run]) -> u64 {
    runs.iter().map(|run| run[1] - run[0] + 1).sum()
}

// ---------------------------------------------------------------------------------------------- store

/// The rising and the falling runs of a store.
fn edges_of(store: &[u64]) -> [&[Run]; 2] {
    let (places, _) = store[HEAD_WORDS..].as_chunks::<2>();
    let (rising, falling) = places.split_at(MAX_RUNS);
    [&rising[..store[0] as usize], &falling[..store[1] as usize]]
}

/// Whether runs are ascending, apart and within 1 to `total`.
fn separated(runs: &[Run], total: u64) -> bool {
    let mut least = 1;
    for run in runs {
        if run[0] < least || run[0] > run[1] || run[1] > total {
            return false;
        }
        least = run[1] + 2;
    }
    true
}

/// Whether words are all zero; without an early end, so that they are read in vectors.
fn all_zero(words: &[u64]) -> bool {
    words.iter().fold(0, |seen, word| seen | word) == 0
}

/// The place Store.
fn check_store(store: &[u64], total: u64) -> Result<(), u32> {
    let most = MAX_RUNS as u64;
    if store[0] > most || store[1] > most || store[TESTS] > MAX_TESTS {
        return Err(40);
    }
    if !edges_of(store).iter().all(|runs| separated(runs, total)) || (store[TESTS] == 0 && store[..2] != [0, 0]) {
        return Err(41);
    }
    let (rising, falling) = store[HEAD_WORDS..].split_at(2 * MAX_RUNS);
    let past_rising = &rising[2 * store[0] as usize..];
    let past_falling = &falling[2 * store[1] as usize..];
    if all_zero(past_rising) && all_zero(past_falling) { Ok(()) } else { Err(42) }
}

/// Puts an edge's runs into a store, zeros after the last.
fn write_edge(store: &mut [u64], edge: usize, runs: &[Run]) {
    let before = store[edge] as usize;
    store[edge] = runs.len() as u64;
    let (places, _) = store[HEAD_WORDS + 2 * MAX_RUNS * edge..].as_chunks_mut::<2>();
    places[..runs.len()].copy_from_slice(runs);
    if runs.len() < before {
        places[runs.len()..before].fill([0, 0]);
    }
}

// ---------------------------------------------------------------------------------------------- one test

/// The pins of which every other pin is outside a set.
fn alone(all: u8, set: u8) -> u8 {
    match set {
        0 => all,
        one if one.is_power_of_two() => one,
        _ => 0,
    }
}

impl Gate {
    /// Its pins among the circuit's.
    fn range(&self) -> Range<usize> {
        let first = self.first_pin as usize;
        first..first + self.pins as usize
    }

    /// The state of the gate's net and its open pins in a class, from the states at its pins, pin 0 in the lowest bit of each byte.
    fn evaluate(&self, packed: u32, class: u32) -> (u32, u8) {
        let [v2, v1, steady, _] = packed.to_le_bytes();
        let all = u8::MAX >> (8 - self.pins);
        let (before, after, controlling, ends_free) = match self.family {
            Family::And => (v1 == all, v2 == all, v2 ^ all, v2),
            Family::Or => (v1 != 0, v2 != 0, v2, v2 ^ all),
            Family::Parity => (v1.count_ones() % 2 == 1, v2.count_ones() % 2 == 1, 0, 0),
        };
        let still = (steady == all) | (steady & controlling != 0);
        let mut open = alone(all, controlling);
        if class == ROBUST {
            open &= (v1 ^ v2) & (ends_free | alone(all, steady ^ all));
        }
        let [before, after] = [before, after].map(|value| (value != self.inverted) as u32);
        (after | before << 8 | (still as u32) << 16, open)
    }
}

impl Scratch {
    /// All zero.
    fn new() -> Scratch {
        Scratch { states: [0; MAX_NETS], open: [0; MAX_NETS], starts: [0; MAX_NETS + 1] }
    }

    /// Where a net's runs stand.
    fn runs_of(&self, net: u16) -> Range<usize> {
        self.starts[net as usize] as usize..self.starts[net as usize + 1] as usize
    }
}

/// A vector of a record as a word.
fn vector(bytes: &[u8]) -> u64 {
    bytes.iter().rev().fold(0, |word, byte| word << 8 | *byte as u64)
}

impl Circuit {
    /// The bytes of a test record.
    fn record_bytes(&self) -> usize {
        2 + 2 * self.inputs.div_ceil(8)
    }

    /// The vectors of a record of the right length.
    fn read_record(&self, record: &[u8]) -> Result<(u64, u64), u32> {
        let (mark, vectors) = record.split_at(2);
        if mark != [0x54, 0x50] {
            return Err(31);
        }
        let (v1, v2) = vectors.split_at(vectors.len() / 2);
        let (v1, v2) = (vector(v1), vector(v2));
        let spare = !(u64::MAX >> (64 - self.inputs));
        if (v1 | v2) & spare != 0 {
            return Err(32);
        }
        if v1 == v2 { Err(85) } else { Ok((v1, v2)) }
    }

    /// The open pins of all gates in a class.
    fn simulate(&self, v1: u64, v2: u64, class: u32, scratch: &mut Scratch) {
        for (input, state) in scratch.states[..self.inputs].iter_mut().enumerate() {
            let [first, last] = [v1, v2].map(|vector| (vector >> input & 1) as u32);
            *state = last | first << 8 | (first ^ last ^ 1) << 16;
        }
        for (net, gate) in (self.inputs..).zip(&self.gates) {
            let mut packed = 0;
            for (place, pin) in self.pins[gate.range()].iter().enumerate() {
                packed |= scratch.states[pin.net as usize] << place;
            }
            (scratch.states[net], scratch.open[net]) = gate.evaluate(packed, class);
        }
    }

    /// The runs of every net for one edge, net after net. None: over 1,024.
    fn net_runs(&self, edges: u64, scratch: &mut Scratch, runs: &mut [Run]) -> Option<()> {
        let mut start = 0;
        for input in 0..self.inputs {
            scratch.starts[input] = start as u16;
            if edges >> input & 1 == 1 {
                runs[start] = [1, 1];
                start += 1;
            }
        }
        for (net, gate) in (self.inputs..).zip(&self.gates) {
            scratch.starts[net] = start as u16;
            let (done, list) = runs.split_at_mut(start);
            let mut len = 0;
            let mut open = scratch.open[net];
            let pins = &self.pins[gate.range()];
            while open != 0 {
                let pin = pins[open.trailing_zeros() as usize];
                let added = &done[scratch.runs_of(pin.net)];
                if !added.is_empty() {
                    len = append_shifted(list, len, added, pin.offset)?;
                }
                open &= open - 1;
            }
            start += len;
        }
        scratch.starts[self.inputs + self.gates.len()] = start as u16;
        Some(())
    }

    /// The number of runs of the path numbers that a test detects for one edge.
    fn detect(&self, edges: u64, scratch: &mut Scratch, runs: &mut [Run], found: &mut [Run]) -> Result<usize, u32> {
        if edges == 0 {
            return Ok(0);
        }
        self.net_runs(edges, scratch, runs).ok_or(50u32)?;
        let mut len = 0;
        for output in &self.outputs {
            len = append_shifted(found, len, &runs[scratch.runs_of(output.net)], output.offset).ok_or(50u32)?;
        }
        Ok(len)
    }

    /// The places Test, from the mark on, and Work for one record on a sound store.
    fn take(
        &self,
        record: &[u8],
        class: u32,
        store: &mut [u64],
        work: &mut [u64],
        scratch: &mut Scratch,
    ) -> Result<(), u32> {
        let vectors = self.read_record(record)?;
        self.apply(vectors, class, store, work, scratch)
    }

    /// 86 and the place Work for one pair of vectors on a sound store.
    fn apply(
        &self,
        (v1, v2): (u64, u64),
        class: u32,
        store: &mut [u64],
        work: &mut [u64],
        scratch: &mut Scratch,
    ) -> Result<(), u32> {
        if store[TESTS] == MAX_TESTS {
            return Err(86);
        }
        let (runs, _) = work.as_chunks_mut::<2>();
        let (nets, rest) = runs.split_at_mut(MAX_RUNS);
        let (rising, rest) = rest.split_at_mut(MAX_RUNS);
        let (falling, rest) = rest.split_at_mut(MAX_RUNS);
        self.simulate(v1, v2, class, scratch);
        let risen = self.detect(v2 & !v1, scratch, nets, rising)?;
        let fallen = self.detect(v1 & !v2, scratch, nets, falling)?;
        let held = edges_of(store);
        let rising = with_new(held[0], &rising[..risen], nets)?;
        let falling = with_new(held[1], &falling[..fallen], &mut rest[..MAX_RUNS])?;
        for (edge, runs) in [rising, falling].into_iter().enumerate() {
            if let Some(runs) = runs {
                write_edge(store, edge, runs);
            }
        }
        store[TESTS] += 1;
        Ok(())
    }
}

/// The union of the held runs with the found ones, if they bring anything new.
fn with_new<'a>(held: &[Run], found: &[Run], list: &'a mut [Run]) -> Result<Option<&'a [Run]>, u32> {
    if all_held(held, found) {
        return Ok(None);
    }
    let len = union(held, found, list).ok_or(51u32)?;
    Ok(Some(&list[..len]))
}

/// The lent memory of the test call and the audit.
fn check_memory(store: &[u64], work: &[u64]) -> Result<(), u32> {
    if store.len() != STORE_WORDS {
        return Err(1);
    }
    if work.len() < WORK_WORDS { Err(2) } else { Ok(()) }
}

/// Class 1 or 2.
fn check_class(class: u32) -> Result<(), u32> {
    if (NON_ROBUST..=ROBUST).contains(&class) { Ok(()) } else { Err(83) }
}

/// The test call: new rising, new falling, held rising, held falling.
pub fn test(netlist: &[u8], record: &[u8], class: u32, store: &mut [u64], work: &mut [u64]) -> Result<[u64; 4], u32> {
    check_memory(store, work)?;
    let circuit = load(netlist)?;
    check_class(class)?;
    if record.len() != circuit.record_bytes() {
        return Err(30);
    }
    let vectors = circuit.read_record(record)?;
    check_store(store, circuit.total)?;
    let before = edges_of(store).map(size);
    circuit.apply(vectors, class, store, work, &mut Scratch::new())?;
    let after = edges_of(store).map(size);
    Ok([after[0] - before[0], after[1] - before[1], after[0], after[1]])
}

// ---------------------------------------------------------------------------------------------- report

/// Writes the report of a sound store; its length.
fn put_report(store: &[u64], tests: u32, total: u64, report: &mut [u8]) -> usize {
    let edges = edges_of(store);
    report[..2].copy_from_slice(&[0x52, 0x50]);
    report[2..6].copy_from_slice(&tests.to_le_bytes());
    report[6..14].copy_from_slice(&total.to_le_bytes());
    report[14..16].copy_from_slice(&(edges[0].len() as u16).to_le_bytes());
    report[16..18].copy_from_slice(&(edges[1].len() as u16).to_le_bytes());
    report[18..26].copy_from_slice(&size(edges[0]).to_le_bytes());
    report[26..34].copy_from_slice(&size(edges[1]).to_le_bytes());
    let numbers = edges.into_iter().flatten().flatten();
    let mut end = REPORT_HEAD;
    for (bytes, number) in report[REPORT_HEAD..].chunks_exact_mut(8).zip(numbers) {
        bytes.copy_from_slice(&number.to_le_bytes());
        end += 8;
    }
    end
}

/// The writer: the report's length.
pub fn write_report(netlist: &[u8], store: &[u64], report: &mut [u8]) -> Result<usize, u32> {
    if store.len() != STORE_WORDS {
        return Err(1);
    }
    if report.len() < REPORT_BYTES {
        return Err(4);
    }
    let survey = survey(netlist)?;
    check_store(store, survey.total)?;
    Ok(put_report(store, store[TESTS] as u32, survey.total, report))
}

/// The place Report.
fn compare(report: &[u8], store: &[u64], tests: u32, total: u64) -> Result<(), u32> {
    if report.len() < REPORT_HEAD || !report.starts_with(&[0x52, 0x50]) {
        return Err(70);
    }
    let runs = [14, 16].map(|at| u16::from_le_bytes([report[at], report[at + 1]]) as usize);
    if report.len() != REPORT_HEAD + RUN_BYTES * (runs[0] + runs[1]) {
        return Err(71);
    }
    let mut expected = [0; REPORT_BYTES];
    let length = put_report(store, tests, total, &mut expected);
    if report == &expected[..length] { Ok(()) } else { Err(72) }
}

/// The records and the report of an audit on a legal netlist, from an empty store.
fn judge(
    circuit: &Circuit,
    tests: &[u8],
    report: &[u8],
    class: u32,
    store: &mut [u64],
    work: &mut [u64],
) -> Result<(), u32> {
    check_class(class)?;
    let bytes = circuit.record_bytes();
    if tests.len() % bytes != 0 {
        return Err(33);
    }
    let count = u32::try_from(tests.len() / bytes).map_err(|_| 33u32)?;
    let mut scratch = Scratch::new();
    for record in tests.chunks_exact(bytes) {
        circuit.take(record, class, store, work, &mut scratch)?;
    }
    compare(report, store, count, circuit.total)
}

/// The audit.
pub fn audit(
    netlist: &[u8],
    tests: &[u8],
    report: &[u8],
    class: u32,
    store: &mut [u64],
    work: &mut [u64],
) -> Result<(), u32> {
    check_memory(store, work)?;
    store.fill(0);
    let circuit = load(netlist)?;
    let judged = judge(&circuit, tests, report, class, store, work);
    if judged.is_err() {
        store.fill(0);
    }
    judged
}
