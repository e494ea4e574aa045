//! The audit and the test call of the library beside the peer, on two loads of each circuit.

use crate::loads::{self, Load, Memories, Memory};
use crate::peer::{self, Caller};
use crate::timing::timed;
use crate::{peer_wide, twin, verified, writer};
use std::fmt::Write;
use std::hint::black_box;
use std::iter::repeat_with;

const RECORDS: usize = 20_000;

const HEAD: &str = "\
The audit and the test call beside the peer: nanoseconds a record of processor time, the least of the repeats, all sides in turn.
moved: one input moves in each record, as the load call writes them. drawn: all inputs drawn for V1 and for V2.
class 1, class 2: the library's audit. scalar, wide: the peer's audit in class 1, one record and 64 records at a time.
left out: records that were refused in one of the classes, of at most 40,000 that were offered. runs: those of the final store in class 1, both edges.
";

const COLUMNS: &str = "\
circuit      load  records left out  runs |  class 1  class 2   scalar     wide | to scalar  to wide   2 to 1 |     test   scalar ratio";

/// Records that are taken in both classes, one after the other, with the stores and the true reports after them, class 1 first.
struct Case {
    load: Load,
    /// The taken records and those left out, in their order.
    offered: Vec<Vec<u8>>,
    stores: [Vec<u64>; 2],
    reports: [Vec<u8>; 2],
}

/// Records in which one input moves, as the load call writes them.
fn moved(inputs: usize) -> Box<dyn Iterator<Item = Vec<u8>>> {
    let (mut state, mut buffer) = (1, vec![0; writer::BYTES]);
    let vectors = repeat_with(move || {
        let (next, bytes) = verified::load(state, inputs as u32, &mut buffer).expect("a taken call");
        state = next;
        buffer[..bytes].chunks_exact(bytes / inputs / 2).map(<[u8]>::to_vec).collect::<Vec<_>>()
    });
    Box::new(vectors.flatten())
}

/// Records whose vectors are drawn, each as the load call draws one.
fn drawn(inputs: usize) -> Box<dyn Iterator<Item = Vec<u8>>> {
    let mut state = 1;
    let mut vector = move || {
        let vector;
        (state, vector) = writer::draw(state, inputs as u32);
        vector
    };
    Box::new(repeat_with(move || {
        let v1 = vector();
        loads::record(inputs, v1, vector())
    }))
}

impl Case {
    /// The first records that are taken, of twice as many as are wanted.
    fn new(netlist: &[u8], inputs: usize, records: impl Iterator<Item = Vec<u8>>) -> Case {
        let mut memories: Memories = [1, 2].map(|class| (class, Memory::new())).into();
        let (mut taken, mut offered) = (Vec::new(), Vec::new());
        for record in records.take(2 * RECORDS) {
            if loads::all_take(&mut memories, netlist, &record) {
                taken.push(record.clone());
            }
            offered.push(record);
            if taken.len() == RECORDS {
                break;
            }
        }
        let load = Load::new(netlist, taken.concat(), inputs);
        let stores = [0, 1].map(|place| memories[place].1.store.clone());
        let reports = [0, 1].map(|place| {
            let mut report = vec![0; twin::REPORT_BYTES];
            let length = twin::write_report(netlist, &stores[place], &mut report);
            report.truncate(length.expect("a report"));
            report
        });
        Case { load, offered, stores, reports }
    }

    /// The audit's sides: the library in class 1 and in class 2, the peer with one record and with 64 at a time.
    fn audits(&self) -> [Side<'_>; 4] {
        let (netlist, tests, [first, second]) = (&self.load.netlist[..], &self.load.tests[..], &self.reports);
        let [store, robust] = &self.stores;
        let library = |name, class, report, store| {
            let run = move |memory: &mut Memory| {
                verified::audit(netlist, tests, report, class, &mut memory.store, &mut memory.work)
            };
            Side { name, store, run: Box::new(run) }
        };
        let scalar = |memory: &mut Memory| peer::audit(peer::apply, netlist, tests, first, &mut memory.store);
        let wide = |memory: &mut Memory| peer::audit(peer_wide::apply, netlist, tests, first, &mut memory.store);
        [
            library("library, class 1", 1, &first[..], &store[..]),
            library("library, class 2", 2, &second[..], &robust[..]),
            Side { name: "scalar", store, run: Box::new(scalar) },
            Side { name: "wide", store, run: Box::new(wide) },
        ]
    }

    /// The test call's sides: library and peer.
    fn calls<'a>(&'a self, caller: &'a mut Caller) -> [Side<'a>; 2] {
        let (load, store) = (&self.load, &self.stores[0][..]);
        let library = |memory: &mut Memory| {
            load.records().try_for_each(|record| {
                verified::test(&load.netlist, record, 1, &mut memory.store, &mut memory.work).map(|answer| {
                    black_box(answer);
                })
            })
        };
        let scalar = |memory: &mut Memory| {
            load.records().try_for_each(|record| {
                caller.test(&load.netlist, record, &mut memory.store).map(|answer| {
                    black_box(answer);
                })
            })
        };
        [
            Side { name: "library, test call", store, run: Box::new(library) },
            Side { name: "scalar, test call", store, run: Box::new(scalar) },
        ]
    }

    /// The test call's answers of library and peer, equal on each record that was offered, and their stores in the end.
    fn same_answers(&self, caller: &mut Caller) {
        let (mut left, mut right) = (Memory::new(), Memory::new());
        for record in &self.offered {
            let answer = verified::test(&self.load.netlist, record, 1, &mut left.store, &mut left.work);
            assert_eq!(answer, caller.test(&self.load.netlist, record, &mut right.store), "answers of the test call");
        }
        assert!(left.store == right.store, "stores of the test call");
    }
}

/// One of the sides that are measured, with the store that it must leave.
struct Side<'a> {
    name: &'static str,
    store: &'a [u64],
    run: Box<dyn FnMut(&mut Memory) -> Result<(), u32> + 'a>,
}

/// The least time of each side. They take turns on the same memory, and another one begins each turn; a first turn warms up and is not counted.
fn race<const SIDES: usize>(repeats: usize, mut sides: [Side; SIDES]) -> [f64; SIDES] {
    let mut least = [f64::MAX; SIDES];
    let mut memory = Memory::new();
    for turn in 0..=repeats {
        for step in 0..SIDES {
            let place = (turn + step) % SIDES;
            let Side { name, store, run } = &mut sides[place];
            memory.store.fill(0);
            let mut answer = Ok(());
            let time = timed(|| answer = run(&mut memory));
            assert_eq!(answer, Ok(()), "{name}");
            assert!(memory.store == *store, "{name} leaves another store");
            if turn > 0 {
                least[place] = least[place].min(time);
            }
        }
    }
    least
}

/// A line of the table, and its lines of the results file: the library's time, the other side's and the ratio.
fn line(name: &str, load_name: &str, case: &Case, repeats: usize) -> String {
    let mut caller = Caller::new();
    case.same_answers(&mut caller);
    let (records, runs) = (case.load.records, case.stores[0][0] + case.stores[0][1]);
    print!("{name:12} {load_name} {records:7} {:8} {runs:5} | ", case.offered.len() - records);
    if records == 0 {
        println!("no record is taken");
        return String::new();
    }
    let audits = race(repeats, case.audits());
    let calls = race(repeats, case.calls(&mut caller));
    let [first, second, scalar, wide] = audits.map(|time| time / records as f64);
    let [test, peer_test] = calls.map(|time| time / records as f64);
    let ratios = [first / scalar, first / wide, second / first].map(|ratio| format!("{ratio:9.2}")).concat();
    println!(
        "{first:8.1} {second:8.1} {scalar:8.1} {wide:8.1} | {ratios} | {test:8.0} {peer_test:8.0} {:5.2}",
        test / peer_test
    );
    let survey = twin::survey(&case.load.netlist).expect("a legal netlist");
    let about = format!("{name},{},{},{records},{},{runs},{repeats}", survey.gates, survey.total, case.load.distinct);
    let mut results = String::new();
    let rows = [
        ("audit scalar", audits[0], audits[2]),
        ("audit wide", audits[0], audits[3]),
        ("audit class 2 to 1", audits[1], audits[0]),
        ("test", calls[0], calls[1]),
    ];
    for (call, library, other) in rows {
        let ratio = library / other;
        writeln!(results, "peer {load_name},{call},{about},{library:.1},{other:.1},{ratio:.3}").expect("a line");
    }
    results
}

/// The table, and its lines of the results file.
pub fn table(folder: &str, circuits: &[&str], repeats: usize) -> String {
    println!("{HEAD}Repeats: {repeats}.\n\n{COLUMNS}");
    let mut results = String::new();
    for name in circuits {
        let netlist = std::fs::read(format!("{folder}/{name}.nl")).expect("a circuit's file");
        let inputs = twin::survey(&netlist).expect("a legal netlist").inputs;
        for (load_name, records) in [("moved", moved(inputs)), ("drawn", drawn(inputs))] {
            let case = Case::new(&netlist, inputs, records);
            results.push_str(&line(name, load_name, &case, repeats));
        }
    }
    results
}
