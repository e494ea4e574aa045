//! All pairs of vectors of a small block: the call beside the audit of the same records with their true report.

use crate::loads::{self, Load, Memory};
use crate::timing::{Times, timed};
use crate::{twin, verified};

const INPUTS: usize = 6;

const HEAD: &str = "\
All pairs of 6 inputs beside the audit of their 4,032 records with the true report: microseconds of processor time, the least of the repeats, in turn.
circuit  gates   T  runs |  class |   exhaust     audit ratio";

/// Gates over 6 inputs, each driving the next net.
struct Block(Vec<(u8, Vec<u16>)>);

impl Block {
    /// A gate; its net.
    fn gate(&mut self, kind: u8, pins: &[u16]) -> u16 {
        self.0.push((kind, pins.to_vec()));
        (INPUTS + self.0.len() - 1) as u16
    }

    /// A half adder: sum and carry.
    fn half(&mut self, a: u16, b: u16) -> (u16, u16) {
        (self.gate(7, &[a, b]), self.gate(3, &[a, b]))
    }

    /// A full adder: sum and carry.
    fn full(&mut self, a: u16, b: u16, c: u16) -> (u16, u16) {
        let (first, carry) = self.half(a, b);
        let (sum, second) = self.half(first, c);
        (sum, self.gate(5, &[carry, second]))
    }

    /// The netlist file with some nets as outputs.
    fn file(&self, mut outputs: Vec<u16>) -> Vec<u8> {
        outputs.sort();
        loads::netlist_file(INPUTS as u16, &self.0, &outputs)
    }
}

/// The AND of all inputs.
fn one_gate() -> Vec<u8> {
    let mut block = Block(Vec::new());
    let net = block.gate(3, &[0, 1, 2, 3, 4, 5]);
    block.file(vec![net])
}

/// An adder of two numbers of 3 bits, inputs 0 to 2 and 3 to 5.
fn adder() -> Vec<u8> {
    let mut block = Block(Vec::new());
    let (low, carry) = block.half(0, 3);
    let (middle, carry) = block.full(1, 4, carry);
    let (high, carry) = block.full(2, 5, carry);
    block.file(vec![low, middle, high, carry])
}

/// A multiplier of the same: rows of products, added one after the other.
fn multiplier() -> Vec<u8> {
    let mut block = Block(Vec::new());
    let rows = [3, 4, 5].map(|b| [0, 1, 2].map(|a| block.gate(3, &[a, b])));
    let (one, carry) = block.half(rows[0][1], rows[1][0]);
    let (two, carry) = block.full(rows[0][2], rows[1][1], carry);
    let (three, four) = block.half(rows[1][2], carry);
    let (two, carry) = block.half(two, rows[2][0]);
    let (three, carry) = block.full(three, rows[2][1], carry);
    let (four, five) = block.full(four, rows[2][2], carry);
    block.file(vec![rows[0][0], one, two, three, four, five])
}

/// The records of all pairs, V1 counted upward and V2 upward within it.
fn all_pairs() -> Vec<u8> {
    let vectors = 0..1 << INPUTS;
    let pairs = vectors.clone().flat_map(|v1| vectors.clone().map(move |v2| (v1, v2)));
    pairs.filter(|(v1, v2)| v1 != v2).flat_map(|(v1, v2)| loads::record(INPUTS, v1, v2)).collect()
}

/// The call and the audit in a class, in turn, another one first each time. Both must leave the store that the twin's test calls leave; its runs.
fn time(load: &Load, class: u32, repeats: usize) -> (Times, u64) {
    let (mut memory, mut twins) = (Memory::new(), Memory::new());
    for record in load.records() {
        twins.twin_test(&load.netlist, record, class).expect("a taken record");
    }
    let mut report = vec![0; twin::REPORT_BYTES];
    let length = twin::write_report(&load.netlist, &twins.store, &mut report).expect("a report");
    report.truncate(length);
    let mut least = [f64::MAX; 2];
    for turn in 0..=repeats {
        for step in 0..2 {
            let Memory { store, work } = &mut memory;
            let (place, mut taken) = ((turn + step) % 2, false);
            let time = match place {
                0 => timed(|| taken = verified::exhaust(&load.netlist, class, store, work).is_ok()),
                _ => timed(|| {
                    taken = verified::audit(&load.netlist, &load.tests, &report, class, store, work).is_ok();
                }),
            };
            assert!(taken, "a refused call");
            assert!(*store == twins.store, "another store");
            if turn > 0 {
                least[place] = least[place].min(time);
            }
        }
    }
    let [verified, twin] = least;
    (Times { verified, twin }, twins.store[0] + twins.store[1])
}

/// The table.
pub fn table(repeats: usize) {
    println!("\n{HEAD}");
    for (name, netlist) in [("and6", one_gate()), ("adder3", adder()), ("mult3", multiplier())] {
        let survey = twin::survey(&netlist).expect("a legal netlist");
        let load = Load::new(&netlist, all_pairs(), INPUTS);
        for class in [1, 2] {
            let (times, runs) = time(&load, class, repeats);
            println!(
                "{name:8} {:5} {:3} {runs:5} | {class:6} | {}",
                survey.gates,
                survey.total,
                times.columns(1e3, 9, 1)
            );
        }
    }
}
