//! The verified library beside a peer that is written for speed, then beside its unverified twin: equal answers, and the processor time of all.
//! Arguments: the folder of circuits, the file for the results, `--quick` for fewer repeats and records, `--audit` for the first table alone,
//! `--load` for the load call alone, `--tree` for the tree's calls alone, `--exhaust` for all pairs of a small block alone.

mod audits;
mod bench_twin;
mod compare;
mod exhaustive;
mod loads;
mod peer;
mod peer_netlist;
mod peer_store;
mod peer_wide;
mod texts;
mod timing;
mod trees;
mod twin;
mod verified;
mod writer;

use compare::Both;
use loads::{Load, Memory, Random};
use std::fmt::Write;
use std::hint::black_box;
use timing::{Times, race};

const CIRCUITS: [&str; 5] = ["c17", "sn74181", "modet_rca16", "cn30_xnor", "mult6_nand"];

const INTRODUCTION: &str = "\
Processor time, the least of the repeats, verified library and twin in turn. T: paths. runs: those of the final store, both edges.
distinct: different records of the audit's load, which has taken records only; the others are repeats.
50, 51: records of the test call's load that were refused so.
";

const CIRCUITS_HEAD: &str = "\
circuit      gates          T  records distinct  runs |  audit ms   twin ms ratio |  test ns  twin ns ratio     50     51 | survey ns  twin ns ratio";

const TEXT_HEAD: &str = "\
gates  names bytes | text bytes |  convert us  twin us ratio | hashed us ratio";

const CLASS_HEAD: &str = "\
circuit      gates          T  records distinct  runs | class 1 ms | class 2 ms  twin ms ratio | to class 1";

const GROWTH_HEAD: &str = "circuit      gates          T  records distinct  runs |  audit ms   twin ms ratio";

const QUESTIONS_HEAD: &str = "runs visited |  holds ns   each ns   scan ns    map ns | check of the words";

const CHANGES_HEAD: &str = "runs  changes | change ns    map ns | copies, one in";

const LOADS_HEAD: &str = "inputs |  load MB/s  twin MB/s ratio";

/// How much to measure, and what was measured.
struct Bench {
    folder: String,
    repeats: usize,
    records: usize,
    both: Both,
    random: Random,
    results: String,
}

/// A load of records that are taken in a class, with its true report, and what its circuit and final store are like.
struct Case {
    name: String,
    load: Load,
    class: u32,
    report: Vec<u8>,
    gates: usize,
    paths: u64,
    runs: usize,
}

impl Case {
    /// The case of a load, its report and its audit equal on both sides.
    fn new(name: &str, load: Load, class: u32, both: &mut Both) -> Case {
        let survey = twin::survey(&load.netlist).expect("a legal netlist");
        assert_eq!(both.survey(&load.netlist), None);
        let report = compare::true_report(both, &load, class);
        assert_eq!(both.audit(&load.netlist, &load.tests, &report, class), 0);
        let runs = (report.len() - 34) / 16;
        let (gates, paths) = (survey.gates, survey.total);
        Case { name: name.to_string(), load, class, report, gates, paths, runs }
    }

    /// The first columns of a table.
    fn columns(&self) -> String {
        let load = &self.load;
        format!(
            "{:12} {:5} {:10} {:8} {:8} {:5}",
            self.name, self.gates, self.paths, load.records, load.distinct, self.runs
        )
    }
}

/// The audit of a case, accepted.
fn time_audit(case: &Case, repeats: usize) -> Times {
    let (mut left, mut right) = (Memory::new(), Memory::new());
    let (netlist, tests, report) = (&case.load.netlist, &case.load.tests, &case.report);
    race(
        repeats,
        || {
            let answer = verified::audit(netlist, tests, report, case.class, &mut left.store, &mut left.work);
            assert_eq!(answer, Ok(()));
        },
        || {
            let answer = twin::audit(netlist, tests, report, case.class, &mut right.store, &mut right.work);
            assert_eq!(answer, Ok(()));
        },
    )
}

/// One test call for each record of a load, from an empty store; the time of one call.
fn time_tests(load: &Load, repeats: usize) -> Times {
    let (mut left, mut right) = (Memory::new(), Memory::new());
    let netlist = &load.netlist;
    let times = race(
        repeats,
        || {
            left.store.fill(0);
            for record in load.records() {
                let answer = verified::test(netlist, record, 1, &mut left.store, &mut left.work);
                let _ = black_box(answer);
            }
        },
        || {
            right.store.fill(0);
            for record in load.records() {
                let answer = twin::test(netlist, record, 1, &mut right.store, &mut right.work);
                let _ = black_box(answer);
            }
        },
    );
    times.each(load.records)
}

/// The time of one survey.
fn time_survey(netlist: &[u8], repeats: usize) -> Times {
    const CALLS: usize = 2000;
    let mut words = [0; 516];
    let times = race(
        repeats,
        || {
            for _ in 0..CALLS {
                let refusal = verified::survey_words(black_box(netlist), black_box(&mut words));
                assert_eq!(refusal, 0);
            }
        },
        || {
            for _ in 0..CALLS {
                assert!(black_box(twin::survey(black_box(netlist))).is_ok());
            }
        },
    );
    times.each(CALLS)
}

impl Bench {
    /// The file of a circuit and its number of inputs.
    fn netlist(&self, name: &str) -> (Vec<u8>, usize) {
        let file = format!("{}/{name}.nl", self.folder);
        let netlist = std::fs::read(file).expect("a circuit's file");
        let inputs = twin::survey(&netlist).expect("a legal netlist").inputs;
        (netlist, inputs)
    }

    /// Keeps a line of the results file. The columns of the audit's load stay empty for another call.
    fn keep(&mut self, table: &str, call: &str, case: &Case, times: Times) {
        let Case { name, load, gates, paths, runs, .. } = case;
        let load = match call {
            "audit" => format!("{},{},{runs}", load.records, load.distinct),
            _ => ",,".to_string(),
        };
        let Times { verified, twin } = times;
        let (repeats, ratio) = (self.repeats, times.ratio());
        writeln!(
            self.results,
            "{table},{call},{name},{gates},{paths},{load},{repeats},{verified:.1},{twin:.1},{ratio:.3}"
        )
        .expect("a line");
    }

    /// Equal answers on refused input.
    fn check(&mut self, case: &Case) {
        let mut memory = Memory::new();
        for record in case.load.records() {
            memory.twin_test(&case.load.netlist, record, case.class).expect("a taken record");
        }
        let both = &mut self.both;
        compare::refused_audits(both, &case.load, &case.report, case.class);
        compare::wrong_lengths(both, &case.load, &case.report);
        compare::refused_tests(both, &case.load, &memory.store, &mut self.random);
        compare::broken_netlists(both, &case.load.netlist, &mut self.random);
    }

    /// Equal answers on a circuit, then its line of the first table.
    fn circuit(&mut self, name: &str) {
        let (netlist, inputs) = self.netlist(name);
        let mixed = loads::mixed(&netlist, inputs, self.records);
        let refused = compare::over_load(&mut self.both, &mixed, 1);
        let taken = loads::taken(&netlist, inputs, self.records, &[1]);
        let case = Case::new(name, taken, 1, &mut self.both);
        self.check(&case);
        let audit = time_audit(&case, self.repeats);
        let test = time_tests(&mixed, self.repeats);
        let survey = time_survey(&netlist, self.repeats);
        self.keep("circuits", "audit", &case, audit);
        self.keep("circuits", "test", &case, test);
        self.keep("circuits", "survey", &case, survey);
        println!(
            "{} | {} | {} {:6} {:6} | {}",
            case.columns(),
            audit.columns(1e6, 9, 2),
            test.columns(1.0, 8, 0),
            refused[0],
            refused[1],
            survey.columns(1.0, 8, 0)
        );
    }

    /// The audit of one load in both classes: equal answers in class 2, then the lines of its table.
    fn classes(&mut self, name: &str) {
        let (netlist, inputs) = self.netlist(name);
        compare::over_load(&mut self.both, &loads::mixed(&netlist, inputs, self.records), 2);
        let cases = [1, 2].map(|class| {
            let load = loads::taken(&netlist, inputs, self.records, &[1, 2]);
            Case::new(name, load, class, &mut self.both)
        });
        self.check(&cases[1]);
        let times = [0, 1].map(|place| time_audit(&cases[place], self.repeats));
        self.keep("class 1", "audit", &cases[0], times[0]);
        self.keep("class 2", "audit", &cases[1], times[1]);
        let more = times[1].verified / times[0].verified;
        println!(
            "{} | {:9.2} | {} | {more:5.2}",
            cases[1].columns(),
            times[0].verified / 1e6,
            times[1].columns(1e6, 9, 2)
        );
    }

    /// The audit in class 2, beside class 1.
    fn by_class(&mut self) {
        println!("\nThe audit of one load in both classes\n{CLASS_HEAD}");
        CIRCUITS.iter().for_each(|name| self.classes(name));
    }

    /// A line of a growth table: the audit alone.
    fn growth(&mut self, table: &str, case: &Case) {
        let times = time_audit(case, self.repeats);
        self.keep(table, "audit", case, times);
        println!("{} | {}", case.columns(), times.columns(1e6, 9, 3));
    }

    /// How the audit's time grows with the records.
    fn by_records(&mut self) {
        println!("\nThe audit by records\n{GROWTH_HEAD}");
        for name in CIRCUITS {
            let (netlist, inputs) = self.netlist(name);
            for records in [self.records / 100, self.records / 10, self.records] {
                let load = loads::taken(&netlist, inputs, records, &[1]);
                let case = Case::new(name, load, 1, &mut self.both);
                self.growth("records", &case);
            }
        }
    }

    /// How the audit's time grows with the gates.
    fn by_gates(&mut self) {
        println!("\nThe audit by gates: chains of full adders\n{GROWTH_HEAD}");
        for bits in [3, 6, 12, 24, 48, 96] {
            let netlist = loads::adder_chain(bits);
            let load = loads::taken(&netlist, loads::ADDER_INPUTS, self.records / 10, &[1]);
            let case = Case::new(&format!("adder{bits}"), load, 1, &mut self.both);
            self.growth("gates", &case);
        }
    }

    /// How the audit's time grows with the runs in the store.
    fn by_runs(&mut self) {
        println!("\nThe audit by runs in the store\n{GROWTH_HEAD}");
        for power in 0..=10 {
            let load = loads::comb_load(1 << power, self.records / 10);
            let case = Case::new("comb", load, 1, &mut self.both);
            assert_eq!(case.runs, 2 << power);
            self.growth("runs", &case);
        }
    }

    /// How the time of a conversion grows with the text: gates of eight pins, names of 4 and of 16 bytes.
    fn by_text(&mut self) {
        println!(
            "\nThe converter from .bench text: gates of eight pins; the twin looks names up one after the other, or by a hash table\n{TEXT_HEAD}"
        );
        for gates in [64, 128, 256, 511] {
            for bytes in [4, 16] {
                let text = texts::gates_of_eight(gates, bytes, &mut self.random);
                self.both.compared += texts::compare(text.as_bytes(), &mut self.random);
                let [twin, hashed] = texts::time(text.as_bytes(), self.repeats);
                println!(
                    "{gates:5} {bytes:12} | {:10} | {} | {:9.1} {:5.2}",
                    text.len(),
                    twin.columns(1e3, 10, 1),
                    hashed.twin / 1e3,
                    hashed.ratio()
                );
                for (call, times) in [("convert", twin), ("convert hashed", hashed)] {
                    let Times { verified, twin } = times;
                    let ratio = times.ratio();
                    writeln!(
                        self.results,
                        "texts,{call},names{bytes},{gates},,,,,{},{verified:.1},{twin:.1},{ratio:.3}",
                        self.repeats
                    )
                    .expect("a line");
                }
            }
        }
    }
}

/// The load call by inputs: equal answers, then bytes per second of processor time. The lines of the results file.
fn loads_by_inputs(repeats: usize) -> String {
    let compared = writer::compare();
    println!("\nThe load call by inputs, {compared} answers and buffers compared\n{LOADS_HEAD}");
    let mut results = String::new();
    for inputs in writer::INPUTS {
        let (times, bytes) = writer::time(inputs, repeats);
        let Times { verified, twin } = times;
        let speed = |time: f64| bytes as f64 / time * 1e3;
        println!("{inputs:6} | {:10.0} {:10.0} {:5.2}", speed(verified), speed(twin), times.ratio());
        writeln!(results, "loads,load,{inputs} inputs,,,,,,{repeats},{verified:.1},{twin:.1},{:.3}", times.ratio())
            .expect("a line");
    }
    results
}

/// The tree's calls: equal answers, then the time of a question and of a change by the runs held.
fn trees_by_runs(repeats: usize) {
    let mut random = Random::new(0x9E37_79B9_7F4A_7C15);
    let compared = trees::compare(&mut random);
    println!(
        "\nA question to a tree, {compared} answers compared; check: what holds takes more than each\n{QUESTIONS_HEAD}"
    );
    for runs in trees::RUNS {
        let trees::Questions { holds, each, scan, map, visited } = trees::questions(runs, repeats, &mut random);
        let check = holds - each;
        println!(
            "{runs:4} {visited:7} | {holds:9.1} {each:9.1} {scan:9.1} {map:9.1} | {check:9.1} ({:.0} %)",
            100.0 * check / holds
        );
    }
    println!("\nA change: a run deleted and inserted in turn\n{CHANGES_HEAD}");
    for runs in trees::RUNS {
        let trees::Changes { tree, map, changes, copies } = trees::changes(runs, 100_000, &mut random);
        let every = changes.checked_div(copies).map_or("-".to_string(), |every| every.to_string());
        println!("{runs:4} {changes:8} | {tree:9.1} {map:9.1} | {copies:6} {every:>7}");
    }
}

/// The tables, in turn, then the results file.
fn main() {
    let words: Vec<String> = std::env::args().collect();
    let asked = |option: &str| words.iter().any(|word| word == option);
    let quick = asked("--quick");
    let (repeats, records) = if quick { (1, 10_000) } else { (9, 100_000) };
    if asked("--load") {
        loads_by_inputs(repeats);
        return;
    }
    if asked("--tree") {
        trees_by_runs(repeats);
        return;
    }
    let turns = if quick { 100 } else { 2_000 };
    if asked("--exhaust") {
        exhaustive::table(turns);
        return;
    }
    let audits = audits::table(&words[1], &CIRCUITS, if quick { 3 } else { 9 });
    if asked("--audit") {
        return;
    }
    let mut bench = Bench {
        folder: words[1].clone(),
        repeats,
        records,
        both: Both::new(),
        random: Random::new(0xA076_1D64_78BD_642F),
        results: "table,call,circuit,gates,paths,records,distinct,runs,repeats,verified_ns,twin_ns,ratio\n".to_string(),
    };
    compare::limits(&mut bench.both);
    println!("\n{INTRODUCTION}Repeats: {repeats}.\n\n{CIRCUITS_HEAD}");
    CIRCUITS.iter().for_each(|name| bench.circuit(name));
    bench.by_class();
    bench.by_records();
    bench.by_gates();
    bench.by_runs();
    bench.by_text();
    let loads = loads_by_inputs(repeats);
    trees_by_runs(repeats);
    exhaustive::table(turns);
    bench.results.push_str(&loads);
    bench.results.push_str(&audits);
    std::fs::write(&words[2], &bench.results).expect("the results file");
    println!("\n{} answers, stores and reports compared: all equal", bench.both.compared);
}
