//! The proved library, through its C interface (crate `genduwal`), with the twin's signatures. The declarations must agree with that crate.

use crate::twin::Survey;

unsafe extern "C" {
    fn genduwal_survey(netlist: *const u8, netlist_bytes: usize, answer: *mut u64) -> u32;
    fn genduwal_empty(store: *mut u64, store_words: usize) -> u32;
    fn genduwal_test(
        netlist: *const u8,
        netlist_bytes: usize,
        record: *const u8,
        record_bytes: usize,
        class: u32,
        store: *mut u64,
        store_words: usize,
        work: *mut u64,
        work_words: usize,
        answer: *mut u64,
    ) -> u32;
    fn genduwal_exhaust(
        netlist: *const u8,
        netlist_bytes: usize,
        class: u32,
        store: *mut u64,
        store_words: usize,
        work: *mut u64,
        work_words: usize,
        answer: *mut u64,
    ) -> u32;
    fn genduwal_totals(
        netlist: *const u8,
        netlist_bytes: usize,
        store: *const u64,
        store_words: usize,
        answer: *mut u64,
    ) -> u32;
    fn genduwal_write_report(
        netlist: *const u8,
        netlist_bytes: usize,
        store: *const u64,
        store_words: usize,
        report: *mut u8,
        report_bytes: usize,
        answer: *mut u64,
    ) -> u32;
    fn genduwal_audit(
        netlist: *const u8,
        netlist_bytes: usize,
        tests: *const u8,
        tests_bytes: usize,
        report: *const u8,
        report_bytes: usize,
        class: u32,
        store: *mut u64,
        store_words: usize,
        work: *mut u64,
        work_words: usize,
    ) -> u32;
    fn genduwal_bench_to_netlist(
        text: *const u8,
        text_bytes: usize,
        netlist: *mut u8,
        netlist_bytes: usize,
        answer: *mut u64,
    ) -> u32;
    fn genduwal_tree_empty(tree: *mut u64, tree_words: usize) -> u32;
    fn genduwal_tree_insert(tree: *mut u64, tree_words: usize, low: u64, high: u64) -> u32;
    fn genduwal_tree_delete(tree: *mut u64, tree_words: usize, low: u64, high: u64) -> u32;
    fn genduwal_tree_search(tree: *const u64, tree_words: usize, low: u64, high: u64, answer: *mut u64) -> u32;
    fn genduwal_tree_total(tree: *const u64, tree_words: usize, answer: *mut u64) -> u32;
    fn genduwal_tree_holds(tree: *const u64, tree_words: usize, number: u64, answer: *mut u64) -> u32;
    fn genduwal_tree_holds_each(
        tree: *const u64,
        tree_words: usize,
        numbers: *const u64,
        numbers_words: usize,
        answers: *mut u64,
        answers_words: usize,
        answer: *mut u64,
    ) -> u32;
    fn genduwal_load(state: u32, inputs: u32, records: *mut u8, records_bytes: usize, answer: *mut u64) -> u32;
}

/// An answer, unless the call was refused.
fn answer<A>(refusal: u32, answer: A) -> Result<A, u32> {
    if refusal == 0 { Ok(answer) } else { Err(refusal) }
}

/// The survey's numbers as the call writes them: I, G, U, T and the 512 counts.
pub fn survey_words(netlist: &[u8], words: &mut [u64; 516]) -> u32 {
    unsafe { genduwal_survey(netlist.as_ptr(), netlist.len(), words.as_mut_ptr()) }
}

/// The survey.
pub fn survey(netlist: &[u8]) -> Result<Survey, u32> {
    let mut words = [0; 516];
    let refusal = survey_words(netlist, &mut words);
    let mut counts = [0; 512];
    counts.copy_from_slice(&words[4..]);
    let [inputs, gates, outputs] = [words[0], words[1], words[2]].map(|word| word as usize);
    answer(refusal, Survey { inputs, gates, outputs, total: words[3], counts })
}

/// Empties a store.
pub fn empty(store: &mut [u64]) -> Result<(), u32> {
    answer(unsafe { genduwal_empty(store.as_mut_ptr(), store.len()) }, ())
}

/// The test call: new rising, new falling, held rising, held falling.
pub fn test(netlist: &[u8], record: &[u8], class: u32, store: &mut [u64], work: &mut [u64]) -> Result<[u64; 4], u32> {
    let mut numbers = [0; 4];
    let refusal = unsafe {
        genduwal_test(
            netlist.as_ptr(),
            netlist.len(),
            record.as_ptr(),
            record.len(),
            class,
            store.as_mut_ptr(),
            store.len(),
            work.as_mut_ptr(),
            work.len(),
            numbers.as_mut_ptr(),
        )
    };
    answer(refusal, numbers)
}

/// The totals: rising and falling.
pub fn totals(netlist: &[u8], store: &[u64]) -> Result<[u64; 2], u32> {
    let mut numbers = [0; 2];
    let refusal =
        unsafe { genduwal_totals(netlist.as_ptr(), netlist.len(), store.as_ptr(), store.len(), numbers.as_mut_ptr()) };
    answer(refusal, numbers)
}

/// The writer: the report's length.
pub fn write_report(netlist: &[u8], store: &[u64], report: &mut [u8]) -> Result<usize, u32> {
    let mut length = [0];
    let refusal = unsafe {
        genduwal_write_report(
            netlist.as_ptr(),
            netlist.len(),
            store.as_ptr(),
            store.len(),
            report.as_mut_ptr(),
            report.len(),
            length.as_mut_ptr(),
        )
    };
    answer(refusal, length[0] as usize)
}

/// The audit.
pub fn audit(
    netlist: &[u8],
    tests: &[u8],
    report: &[u8],
    class: u32,
    store: &mut [u64],
    work: &mut [u64],
) -> Result<(), u32> {
    let refusal = unsafe {
        genduwal_audit(
            netlist.as_ptr(),
            netlist.len(),
            tests.as_ptr(),
            tests.len(),
            report.as_ptr(),
            report.len(),
            class,
            store.as_mut_ptr(),
            store.len(),
            work.as_mut_ptr(),
            work.len(),
        )
    };
    answer(refusal, ())
}

/// All pairs of vectors in a class: the totals.
pub fn exhaust(netlist: &[u8], class: u32, store: &mut [u64], work: &mut [u64]) -> Result<[u64; 2], u32> {
    let mut totals = [0; 2];
    let refusal = unsafe {
        genduwal_exhaust(
            netlist.as_ptr(),
            netlist.len(),
            class,
            store.as_mut_ptr(),
            store.len(),
            work.as_mut_ptr(),
            work.len(),
            totals.as_mut_ptr(),
        )
    };
    answer(refusal, totals)
}

/// The converter from .bench text: the length of the netlist file.
pub fn convert(text: &[u8], netlist: &mut [u8]) -> Result<usize, u32> {
    let mut length = 0;
    let refusal = unsafe {
        genduwal_bench_to_netlist(text.as_ptr(), text.len(), netlist.as_mut_ptr(), netlist.len(), &mut length)
    };
    answer(refusal, length as usize)
}

/// The load call: the state afterwards, and the bytes written.
pub fn load(state: u32, inputs: u32, records: &mut [u8]) -> Result<(u32, usize), u32> {
    let mut words = [0; 2];
    let refusal = unsafe { genduwal_load(state, inputs, records.as_mut_ptr(), records.len(), words.as_mut_ptr()) };
    answer(refusal, (words[0] as u32, words[1] as usize))
}

/// Empties a tree.
pub fn tree_empty(tree: &mut [u64]) -> Result<(), u32> {
    answer(unsafe { genduwal_tree_empty(tree.as_mut_ptr(), tree.len()) }, ())
}

/// Inserts a run into a tree.
pub fn tree_insert(tree: &mut [u64], low: u64, high: u64) -> Result<(), u32> {
    answer(unsafe { genduwal_tree_insert(tree.as_mut_ptr(), tree.len(), low, high) }, ())
}

/// Deletes a run from a tree.
pub fn tree_delete(tree: &mut [u64], low: u64, high: u64) -> Result<(), u32> {
    answer(unsafe { genduwal_tree_delete(tree.as_mut_ptr(), tree.len(), low, high) }, ())
}

/// The least overlapping run of a tree, else the adjacent one with the least low.
pub fn tree_search(tree: &[u64], low: u64, high: u64) -> Result<Option<(u64, u64)>, u32> {
    let mut words = [0; 3];
    let refusal = unsafe { genduwal_tree_search(tree.as_ptr(), tree.len(), low, high, words.as_mut_ptr()) };
    answer(refusal, (words[0] == 1).then_some((words[1], words[2])))
}

/// How many numbers a tree holds.
pub fn tree_total(tree: &[u64]) -> Result<u64, u32> {
    let mut total = 0;
    let refusal = unsafe { genduwal_tree_total(tree.as_ptr(), tree.len(), &mut total) };
    answer(refusal, total)
}

/// Whether a tree holds a number, and the nodes visited.
pub fn tree_holds(tree: &[u64], number: u64) -> Result<(bool, u64), u32> {
    let mut words = [0; 2];
    let refusal = unsafe { genduwal_tree_holds(tree.as_ptr(), tree.len(), number, words.as_mut_ptr()) };
    answer(refusal, (words[0] == 1, words[1]))
}

/// Whether a tree holds each of the numbers; the nodes visited for each.
pub fn tree_holds_each(tree: &[u64], numbers: &[u64], answers: &mut [u64]) -> Result<u64, u32> {
    let mut visited = 0;
    let refusal = unsafe {
        genduwal_tree_holds_each(
            tree.as_ptr(),
            tree.len(),
            numbers.as_ptr(),
            numbers.len(),
            answers.as_mut_ptr(),
            answers.len(),
            &mut visited,
        )
    };
    answer(refusal, visited)
}
