//! Circuits and test records to measure with, the same in every run.

use crate::twin;
use std::collections::HashSet;

/// A xorshift generator of 64 bits.
pub struct Random(u64);

impl Random {
    /// The generator from a seed, which is not 0.
    pub fn new(seed: u64) -> Random {
        Random(seed)
    }

    /// The next word.
    pub fn next(&mut self) -> u64 {
        self.0 ^= self.0 << 13;
        self.0 ^= self.0 >> 7;
        self.0 ^= self.0 << 17;
        self.0
    }

    /// A number below `limit`.
    pub fn below(&mut self, limit: usize) -> usize {
        (self.next() >> 11) as usize % limit
    }
}

/// The store and the working memory of one side.
pub struct Memory {
    pub store: Vec<u64>,
    pub work: Vec<u64>,
}

impl Memory {
    /// An empty store.
    pub fn new() -> Memory {
        Memory { store: vec![0; twin::STORE_WORDS], work: vec![0; twin::WORK_WORDS] }
    }

    /// The twin's test call.
    pub fn twin_test(&mut self, netlist: &[u8], record: &[u8], class: u32) -> Result<[u64; 4], u32> {
        twin::test(netlist, record, class, &mut self.store, &mut self.work)
    }
}

/// A netlist with test records end to end.
pub struct Load {
    pub netlist: Vec<u8>,
    pub tests: Vec<u8>,
    pub record_bytes: usize,
    pub records: usize,
    pub distinct: usize,
}

impl Load {
    /// The load of some records.
    pub fn new(netlist: &[u8], tests: Vec<u8>, inputs: usize) -> Load {
        let record_bytes = 2 + 2 * inputs.div_ceil(8);
        let distinct = tests.chunks_exact(record_bytes).collect::<HashSet<_>>().len();
        let records = tests.len() / record_bytes;
        Load { netlist: netlist.to_vec(), tests, record_bytes, records, distinct }
    }

    /// The records, one by one.
    pub fn records(&self) -> impl Iterator<Item = &[u8]> {
        self.tests.chunks_exact(self.record_bytes)
    }
}

/// The record of a pair of vectors.
pub fn record(inputs: usize, v1: u64, v2: u64) -> Vec<u8> {
    let bytes = inputs.div_ceil(8);
    let used = u64::MAX >> (64 - inputs);
    let mut record = vec![0x54, 0x50];
    for vector in [v1, v2] {
        record.extend_from_slice(&(vector & used).to_le_bytes()[..bytes]);
    }
    record
}

/// The next record of a mixed load: in turn a random pair, a pair that differs in one to three inputs, and a repeat of an earlier record. A random
/// pair of equal vectors, which is no test (85), is drawn again.
fn propose(turn: usize, inputs: usize, earlier: &[Vec<u8>], random: &mut Random) -> Vec<u8> {
    let v2 = random.next();
    if turn % 3 == 2 && !earlier.is_empty() {
        return earlier[random.below(earlier.len())].clone();
    }
    if turn % 3 == 0 {
        let used = u64::MAX >> (64 - inputs);
        let mut v1 = random.next();
        while (v1 ^ v2) & used == 0 {
            v1 = random.next();
        }
        return record(inputs, v1, v2);
    }
    let moves = 1 + random.below(3);
    let moved = (0..moves).fold(0, |moved, _| moved | 1 << random.below(inputs));
    record(inputs, v2 ^ moved, v2)
}

/// A mixed load, refused records among it: for the test call.
pub fn mixed(netlist: &[u8], inputs: usize, count: usize) -> Load {
    let mut random = Random::new(0x9E37_79B9_7F4A_7C15);
    let mut taken: Vec<Vec<u8>> = Vec::with_capacity(count);
    for turn in 0..count {
        taken.push(propose(turn, inputs, &taken, &mut random));
    }
    Load::new(netlist, taken.concat(), inputs)
}

/// A store for each class of the load.
pub type Memories = Vec<(u32, Memory)>;

/// Whether each class's store takes a record; where one does not, all stay as they were.
pub fn all_take(memories: &mut Memories, netlist: &[u8], record: &[u8]) -> bool {
    let before: Vec<Vec<u64>> = memories.iter().map(|(_, memory)| memory.store.clone()).collect();
    let taken = memories.iter_mut().all(|(class, memory)| memory.twin_test(netlist, record, *class).is_ok());
    if !taken {
        memories.iter_mut().zip(before).for_each(|((_, memory), store)| memory.store = store);
    }
    taken
}

/// A record that each class's store takes: of the mixed kinds, or of one moved input, or else, after the first, a repeat of a taken record.
fn next_taken(
    netlist: &[u8],
    inputs: usize,
    turn: usize,
    taken: &[Vec<u8>],
    memories: &mut Memories,
    random: &mut Random,
) -> Vec<u8> {
    for attempt in 0.. {
        if 8 <= attempt && !taken.is_empty() {
            break;
        }
        let next = if attempt < 4 {
            propose(turn, inputs, taken, random)
        } else {
            let v2 = random.next();
            record(inputs, v2 ^ 1 << random.below(inputs), v2)
        };
        if all_take(memories, netlist, &next) {
            return next;
        }
    }
    taken[random.below(taken.len())].clone()
}

/// A mixed load whose records are all taken in each of some classes, in their order: for the audit, which ends at the first refused record.
pub fn taken(netlist: &[u8], inputs: usize, count: usize, classes: &[u32]) -> Load {
    let mut random = Random::new(0xD1B5_4A32_D192_ED03);
    let mut memories: Memories = classes.iter().map(|class| (*class, Memory::new())).collect();
    let mut taken: Vec<Vec<u8>> = Vec::with_capacity(count);
    for turn in 0..count {
        taken.push(next_taken(netlist, inputs, turn, &taken, &mut memories, &mut random));
    }
    Load::new(netlist, taken.concat(), inputs)
}

/// A netlist file from gates (kind and pins) and outputs.
pub fn netlist_file(inputs: u16, gates: &[(u8, Vec<u16>)], outputs: &[u16]) -> Vec<u8> {
    let mut file = vec![0x4E, 0x4C];
    for number in [inputs, gates.len() as u16, outputs.len() as u16] {
        file.extend_from_slice(&number.to_le_bytes());
    }
    for (kind, pins) in gates {
        file.extend_from_slice(&[0x47, 0x54, *kind, pins.len() as u8]);
        pins.iter().for_each(|net| file.extend_from_slice(&net.to_le_bytes()));
    }
    for net in outputs {
        file.extend_from_slice(&[0x4F, 0x55]);
        file.extend_from_slice(&net.to_le_bytes());
    }
    file
}

pub const ADDER_INPUTS: usize = 32;

/// A chain of full adders of five gates each over 32 inputs, which the bits take in turn; the last 63 sums and the carry are outputs.
pub fn adder_chain(bits: usize) -> Vec<u8> {
    let inputs = ADDER_INPUTS as u16;
    let mut gates = Vec::new();
    let mut sums = Vec::new();
    let mut carry = inputs - 1;
    for bit in 0..bits as u16 {
        let (a, b) = (bit % 15, 15 + bit % 15);
        let first = inputs + gates.len() as u16;
        gates.push((7, vec![a, b]));
        gates.push((3, vec![a, b]));
        gates.push((7, vec![first, carry]));
        gates.push((3, vec![first, carry]));
        gates.push((5, vec![first + 1, first + 3]));
        sums.push(first + 2);
        carry = first + 4;
    }
    let mut outputs = sums.split_off(sums.len().saturating_sub(63));
    outputs.push(carry);
    netlist_file(inputs, &gates, &outputs)
}

pub const COMB_INPUTS: usize = 50;
const SINGLE: usize = 16;

/// A circuit whose tests fill a store run by run: input 0 passes 16 ANDs, each with its own enabling input, and in 64 paths, every other one
/// from input 1, 32 more such ANDs. A test of one of the first adds one run, a test of one of the others 32.
pub fn comb() -> Vec<u8> {
    let inputs = COMB_INPUTS as u16;
    let mut gates = vec![(7, [0, 1].repeat(4)), (7, vec![inputs; 8])];
    for place in 0..COMB_INPUTS - 2 {
        let source = if place < SINGLE { 0 } else { inputs + 1 };
        gates.push((3, vec![source, 2 + place as u16]));
    }
    let outputs: Vec<u16> = (inputs + 2..inputs + 50).collect();
    netlist_file(inputs, &gates, &outputs)
}

/// The record that opens one AND of the comb and moves input 0 up or down.
fn comb_record(place: usize, rises: bool) -> Vec<u8> {
    let open = 1 << (2 + place);
    record(COMB_INPUTS, open | !rises as u64, open | rises as u64)
}

/// Records on the comb that leave `runs` runs of each edge in the store: 1 to 16, or a multiple of 32 up to 1,024.
pub fn comb_load(runs: usize, count: usize) -> Load {
    let places = if runs <= SINGLE { 0..runs } else { SINGLE..SINGLE + runs / 32 };
    let mut random = Random::new(0x2545_F491_4F6C_DD1D);
    let mut tests = Vec::new();
    for turn in 0..count {
        let place = places.start + if turn < 2 * places.len() { turn / 2 } else { random.below(places.len()) };
        tests.push(comb_record(place, turn % 2 == 0));
    }
    Load::new(&comb(), tests.concat(), COMB_INPUTS)
}
