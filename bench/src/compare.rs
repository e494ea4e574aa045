//! Equal answers, stores and reports of the verified library and the twin, on good input and on bad.

use crate::loads::{Load, Memory, Random, adder_chain, netlist_file};
use crate::twin;
use crate::verified;

/// Both sides' memory, which must stay equal.
pub struct Both {
    verified: Memory,
    twin: Memory,
    /// The comparisons made.
    pub compared: usize,
}

impl Both {
    /// Empty stores.
    pub fn new() -> Both {
        Both { verified: Memory::new(), twin: Memory::new(), compared: 0 }
    }

    /// Both stores, filled with the same words.
    fn set_stores(&mut self, words: &[u64]) {
        self.verified.store = words.to_vec();
        self.twin.store = words.to_vec();
    }

    /// Both stores are equal.
    fn same_stores(&mut self, what: &str) {
        assert!(self.verified.store == self.twin.store, "stores differ: {what}");
        self.compared += 1;
    }

    /// The survey of some bytes.
    pub fn survey(&mut self, netlist: &[u8]) -> Option<u32> {
        let numbers = |answer: Result<twin::Survey, u32>| {
            answer.map(|found| (found.inputs, found.gates, found.outputs, found.total, found.counts))
        };
        let answers = (numbers(verified::survey(netlist)), numbers(twin::survey(netlist)));
        assert!(answers.0 == answers.1, "surveys differ");
        self.compared += 1;
        answers.1.err()
    }

    /// One test call on both stores.
    pub fn test(&mut self, netlist: &[u8], record: &[u8], class: u32) -> Result<[u64; 4], u32> {
        let answers = (
            verified::test(netlist, record, class, &mut self.verified.store, &mut self.verified.work),
            self.twin.twin_test(netlist, record, class),
        );
        assert_eq!(answers.0, answers.1, "answers of the test call differ");
        self.compared += 1;
        answers.1
    }

    /// The audit: the refusal's number, or 0.
    pub fn audit(&mut self, netlist: &[u8], tests: &[u8], report: &[u8], class: u32) -> u32 {
        let answers = (
            verified::audit(netlist, tests, report, class, &mut self.verified.store, &mut self.verified.work),
            twin::audit(netlist, tests, report, class, &mut self.twin.store, &mut self.twin.work),
        );
        assert_eq!(answers.0, answers.1, "answers of the audit differ");
        self.same_stores("after an audit");
        answers.1.err().unwrap_or(0)
    }

    /// The writer on the stores as they are: the report, or the refusal.
    pub fn report(&mut self, netlist: &[u8], bytes: usize) -> Result<Vec<u8>, u32> {
        let mut reports = (vec![0xA5; bytes], vec![0xA5; bytes]);
        let lengths = (
            verified::write_report(netlist, &self.verified.store, &mut reports.0),
            twin::write_report(netlist, &self.twin.store, &mut reports.1),
        );
        assert_eq!(lengths.0, lengths.1, "lengths of the reports differ");
        assert!(reports.0 == reports.1, "reports differ");
        self.compared += 1;
        reports.1.truncate(lengths.1?);
        Ok(reports.1)
    }
}

/// The test call over a load with the store going on: how many were refused with 50 and with 51.
pub fn over_load(both: &mut Both, load: &Load, class: u32) -> [usize; 2] {
    both.set_stores(&[1; twin::STORE_WORDS]);
    verified::empty(&mut both.verified.store).unwrap();
    both.twin.store.fill(0);
    let mut refused = [0, 0];
    for (turn, record) in load.records().enumerate() {
        match both.test(&load.netlist, record, class) {
            Ok(answer) if turn % 64 == 0 => {
                assert_eq!(verified::totals(&load.netlist, &both.verified.store), Ok([answer[2], answer[3]]));
                both.same_stores("over the load");
            }
            Ok(_) => {}
            Err(50) => refused[0] += 1,
            Err(51) => refused[1] += 1,
            Err(other) => panic!("a record of the load is refused with {other}"),
        }
    }
    both.same_stores("after the load");
    refused
}

/// The true report of a load, equal from both sides.
pub fn true_report(both: &mut Both, load: &Load, class: u32) -> Vec<u8> {
    let accepted_by_none = both.audit(&load.netlist, &load.tests, &[], class);
    assert_eq!(accepted_by_none, 70);
    for record in load.records() {
        both.test(&load.netlist, record, class).expect("a taken record");
    }
    both.report(&load.netlist, twin::REPORT_BYTES).expect("a report")
}

/// A copy of some bytes with one changed.
fn changed(bytes: &[u8], at: usize, change: u8) -> Vec<u8> {
    let mut copy = bytes.to_vec();
    copy[at] ^= change;
    copy
}

/// A copy of some records in which V2 of the record at a place of the file is its V1.
fn padded(tests: &[u8], at: usize, record_bytes: usize) -> Vec<u8> {
    let mut copy = tests.to_vec();
    let vector = (record_bytes - 2) / 2;
    copy.copy_within(at + 2..at + 2 + vector, at + 2 + vector);
    copy
}

/// The refused audits of a load: 83, 33, 31, 32, 85, 70, 71, 72 and a netlist cut short.
pub fn refused_audits(both: &mut Both, load: &Load, report: &[u8], class: u32) {
    let (netlist, tests) = (&load.netlist[..], &load.tests[..]);
    let middle = load.record_bytes * (load.records / 2);
    let spare = middle + load.record_bytes - 1;
    let more_runs = changed(report, 14, 1);
    assert_eq!(both.audit(netlist, tests, report, class), 0);
    assert_eq!(both.audit(netlist, &tests[..tests.len() - 1], report, class), 33);
    assert_eq!(both.audit(netlist, &changed(tests, middle, 1), report, class), 31);
    assert_eq!(both.audit(netlist, &changed(tests, middle + 1, 0x80), report, class), 31);
    assert_eq!(both.audit(netlist, &changed(tests, spare, 0x80), report, class), 32);
    assert_eq!(both.audit(netlist, &padded(tests, middle, load.record_bytes), report, class), 85);
    assert_eq!(both.audit(netlist, tests, &report[..33], class), 70);
    assert_eq!(both.audit(netlist, tests, &changed(report, 0, 1), class), 70);
    assert_eq!(both.audit(netlist, tests, &more_runs, class), 71);
    assert_eq!(both.audit(netlist, tests, &[report, &[0]].concat(), class), 71);
    for at in [2, 6, 18, 26, report.len() - 1] {
        assert_eq!(both.audit(netlist, tests, &changed(report, at, 1), class), 72);
    }
    for other in [0, 3, 49, u32::MAX] {
        assert_eq!(both.audit(netlist, &tests[1..], report, other), 83);
    }
    let cut = netlist.len() - 1;
    assert_eq!(both.audit(&netlist[..cut], tests, report, class), 18);
}

/// Lent memory of a wrong length: 1, 2 and 4.
pub fn wrong_lengths(both: &mut Both, load: &Load, report: &[u8]) {
    let record = &load.tests[..load.record_bytes];
    both.set_stores(&[7; twin::STORE_WORDS - 1]);
    assert_eq!(both.test(&load.netlist, record, 1), Err(1));
    assert_eq!(both.audit(&load.netlist, &load.tests, report, 1), 1);
    assert_eq!(both.report(&load.netlist, twin::REPORT_BYTES), Err(1));
    assert_eq!(verified::empty(&mut both.verified.store), Err(1));
    both.set_stores(&[0; twin::STORE_WORDS]);
    assert_eq!(both.report(&load.netlist, twin::REPORT_BYTES - 1), Err(4));
    both.verified.work.pop();
    both.twin.work.pop();
    assert_eq!(both.test(&load.netlist, record, 1), Err(2));
    assert_eq!(both.audit(&load.netlist, &load.tests, report, 1), 2);
    both.verified.work.push(0);
    both.twin.work.push(0);
}

/// The test call on records and stores with one thing wrong: 83, 30, 31, 32, 85, 40, 41, 42, 86.
pub fn refused_tests(both: &mut Both, load: &Load, store: &[u64], random: &mut Random) {
    let record = &load.tests[..load.record_bytes];
    both.set_stores(store);
    assert_eq!(both.test(&load.netlist, &record[1..], 3), Err(83));
    assert_eq!(both.test(&load.netlist, &record[1..], 1), Err(30));
    assert_eq!(both.test(&load.netlist, &changed(record, 0, 1), 1), Err(31));
    assert_eq!(both.test(&load.netlist, &changed(record, record.len() - 1, 0x80), 1), Err(32));
    assert_eq!(both.test(&load.netlist, &padded(record, 0, record.len()), 1), Err(85));
    for _ in 0..2000 {
        let mut broken = store.to_vec();
        let at = [0, 1, 2, 3, 4, 2051, random.below(broken.len())][random.below(7)];
        let full = u64::from(u32::MAX);
        broken[at] = [0, 1, 2, broken[at] + 1, broken[at].wrapping_sub(1), 1025, full, full + 1, u64::MAX][random.below(9)];
        both.set_stores(&broken);
        let _ = both.test(&load.netlist, record, 1);
        let _ = both.report(&load.netlist, twin::REPORT_BYTES);
        both.same_stores("after a test on a broken store");
    }
}

/// The survey of every beginning of a netlist, and of the netlist with bytes changed at random.
pub fn broken_netlists(both: &mut Both, netlist: &[u8], random: &mut Random) {
    for end in 0..netlist.len() {
        assert!(both.survey(&netlist[..end]).is_some());
    }
    assert_eq!(both.survey(&[netlist, &[0]].concat()), Some(20));
    for _ in 0..20_000 {
        let mut broken = netlist.to_vec();
        for _ in 0..=random.below(2) {
            let at = random.below(broken.len());
            broken[at] = [random.next() as u8, broken[at] ^ 1, 0, 9][random.below(4)];
        }
        both.survey(&broken);
    }
}

/// Inputs a and b, and a chain of gates XOR of eight pins, the first over a and b in turn; `groups` such groups, one output each.
fn xor_groups(groups: u16, gates: u16) -> Vec<u8> {
    let inputs = 2 * groups;
    let mut list = Vec::new();
    for group in 0..groups {
        list.push((7, [2 * group, 2 * group + 1].repeat(4)));
        for _ in 1..gates {
            list.push((7, vec![inputs + list.len() as u16 - 1; 8]));
        }
    }
    let outputs: Vec<u16> = (1..=groups).map(|group| inputs + gates * group - 1).collect();
    netlist_file(inputs, &list, &outputs)
}

/// Document 01's circuits at the limits: 2^62 paths and 17, working runs 293 and 50, 1,024 runs in the store and 51.
pub fn limits(both: &mut Both) {
    for (gates, refused) in [(62u16, None), (63, Some(17))] {
        let chain: Vec<_> = (0..gates).map(|net| (3, vec![net, net])).collect();
        assert_eq!(both.survey(&netlist_file(1, &chain, &[gates])), refused);
    }
    both.set_stores(&[0; twin::STORE_WORDS]);
    assert_eq!(both.test(&xor_groups(1, 3), &[0x54, 0x50, 0, 1], 1), Ok([256, 0, 256, 0]));
    assert_eq!(both.test(&xor_groups(1, 4), &[0x54, 0x50, 0, 1], 1), Err(50));
    both.set_stores(&[0; twin::STORE_WORDS]);
    let five = xor_groups(5, 3);
    for group in 0..5u64 {
        let record = crate::loads::record(10, 0, 1 << (2 * group));
        let held = 256 * (group + 1);
        let expected = if group < 4 { Ok([256, 0, held, 0]) } else { Err(51) };
        assert_eq!(both.test(&five, &record, 1), expected);
        both.same_stores("of five groups");
    }
    both.survey(&adder_chain(96));
}
