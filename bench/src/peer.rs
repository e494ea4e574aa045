//! The peer: the test call and the audit as one writes them for speed in plain Rust, with no proof. The tables of gates and pins are made once
//! for an audit, a gate of one or two pins is one look-up, nets without runs are passed over, and a store that has all found runs is left alone.
//! It keeps its own working memory. Class 1 only, for circuits in which no output is an input net and a gate of one pin is a buffer or a NOT.
//! A refusal is the papers' number.

use crate::peer_netlist::{Gate, NETS, Netlist, TWO_PINS, gate_rule, place};
use crate::peer_store::{Store, TESTS, compare};

pub const RUNS: usize = 1024;
pub const MAX_TESTS: u64 = u32::MAX as u64;
const STORE_WORDS: usize = 4099;

/// A list of runs: low and high in turn.
pub type Runs = [u64; 2 * RUNS];

// ---------------------------------------------------------------------------------------------- one test

/// The runs of one edge, those of all nets end to end, and where each net's stand.
pub struct Work {
    pub runs: Runs,
    pub len: usize,
    pub parts: [(u16, u16); NETS],
}

impl Work {
    fn new() -> Box<Work> {
        Box::new(Work { runs: [0; 2 * RUNS], len: 0, parts: [(0, 0); NETS] })
    }

    /// The run of an input that moves. The inputs come first, so there is room.
    #[inline]
    pub fn input(&mut self, net: usize) {
        self.runs[2 * self.len] = 1;
        self.runs[2 * self.len + 1] = 1;
        self.len += 1;
        self.close(net, self.len - 1);
    }

    /// Adds a net's runs, shifted, to those of the net that began at `begin`. They lie above what is there.
    #[inline]
    pub fn append(&mut self, begin: usize, from: u16, offset: u64) -> Result<(), u32> {
        let (at, end) = self.parts[place(from)];
        let (mut at, end, mut len) = (at as usize, end as usize, self.len);
        if len > begin && at < end && self.runs[2 * len - 1] + 1 == self.runs[2 * at] + offset {
            self.runs[2 * len - 1] = self.runs[2 * at + 1] + offset;
            at += 1;
        }
        if len + (end - at) > RUNS {
            return Err(50);
        }
        while at < end {
            self.runs[2 * len] = self.runs[2 * at] + offset;
            self.runs[2 * len + 1] = self.runs[2 * at + 1] + offset;
            len += 1;
            at += 1;
        }
        self.len = len;
        Ok(())
    }

    /// The runs from `begin` on are those of a net.
    #[inline]
    pub fn close(&mut self, net: usize, begin: usize) {
        self.parts[net & (NETS - 1)] = (begin as u16, self.len as u16);
    }
}

/// What one test leaves. A net's flags: its value under V2, whether it has rising runs, whether it has falling runs.
pub struct Judge {
    pub flags: [u8; NETS],
    pub work: [Box<Work>; 2],
    /// Each edge's runs after the test.
    pub fresh: [Box<Runs>; 2],
}

impl Judge {
    pub fn new() -> Judge {
        Judge { flags: [0; NETS], work: [Work::new(), Work::new()], fresh: [[0; 2 * RUNS]; 2].map(Box::new) }
    }

    /// The values of all nets, and each edge's runs of all nets.
    fn simulate(&mut self, netlist: &Netlist, v1: u64, v2: u64) -> Result<(), u32> {
        let Judge { flags, work: [rising, falling], .. } = self;
        (rising.len, falling.len) = (0, 0);
        for input in 0..netlist.inputs {
            flags[input & (NETS - 1)] = (v2 >> input & 1) as u8;
        }
        for (work, flag, mut moved) in [(&mut *rising, 2, !v1 & v2), (&mut *falling, 4, v1 & !v2)] {
            while moved != 0 {
                let input = moved.trailing_zeros() as usize;
                flags[input] |= flag;
                work.input(input);
                moved &= moved - 1;
            }
        }
        for (number, gate) in netlist.gates.iter().enumerate() {
            let net = (netlist.inputs + number) & (NETS - 1);
            if gate.pins > 2 {
                many_pins(netlist, gate, net, flags, rising, falling)?;
                continue;
            }
            let (a, b) = (flags[place(gate.a)] as usize, flags[place(gate.b)] as usize);
            let passed = TWO_PINS[((gate.kind as usize - 1) << 6 | b << 3 | a) & 511];
            flags[net] = passed & 7;
            if passed < 8 {
                continue;
            }
            let offset = netlist.pin_offsets[gate.first as usize + gate.pins as usize - 1];
            for (work, open) in [(&mut *rising, passed >> 3 & 3), (&mut *falling, passed >> 5)] {
                if open != 0 {
                    let begin = work.len;
                    if open & 1 != 0 {
                        work.append(begin, gate.a, 0)?;
                    }
                    if open & 2 != 0 {
                        work.append(begin, gate.b, offset)?;
                    }
                    work.close(net, begin);
                }
            }
        }
        Ok(())
    }

    /// One record on a store: the new faults of each edge.
    fn test(&mut self, netlist: &Netlist, (v1, v2): (u64, u64), store: &mut Store) -> Result<[u64; 2], u32> {
        if store.tests == MAX_TESTS {
            return Err(86);
        }
        self.simulate(netlist, v1, v2)?;
        self.add(netlist, store)
    }
}

/// The flags and the runs of a gate of three to eight pins. Not inlined, which makes the loop over gates of two pins faster.
#[inline(never)]
fn many_pins(
    netlist: &Netlist,
    gate: &Gate,
    net: usize,
    flags: &mut [u8; NETS],
    rising: &mut Work,
    falling: &mut Work,
) -> Result<(), u32> {
    let pins = gate.first as usize..gate.first as usize + gate.pins as usize;
    let (nets, offsets) = (&netlist.pin_nets[pins.clone()], &netlist.pin_offsets[pins]);
    let (mut values, mut rise, mut fall) = (0, 0, 0);
    for (pin, from) in nets.iter().enumerate() {
        let seen = flags[place(*from)] as u32;
        values |= (seen & 1) << pin;
        rise |= (seen >> 1 & 1) << pin;
        fall |= (seen >> 2) << pin;
    }
    let (value, open) = gate_rule(gate.kind, nets.len() as u32, values);
    let (rise, fall) = (rise & open, fall & open);
    flags[net] = value as u8 | u8::from(rise != 0) << 1 | u8::from(fall != 0) << 2;
    for (work, mut open) in [(rising, rise), (falling, fall)] {
        if open != 0 {
            let begin = work.len;
            while open != 0 {
                let pin = open.trailing_zeros() as usize;
                work.append(begin, nets[pin], offsets[pin])?;
                open &= open - 1;
            }
            work.close(net, begin);
        }
    }
    Ok(())
}

// ---------------------------------------------------------------------------------------------- calls

/// The memory of test calls, kept from call to call.
pub struct Caller {
    netlist: Netlist,
    store: Store,
    judge: Judge,
}

impl Caller {
    pub fn new() -> Caller {
        Caller { netlist: Netlist::blank(), store: Store::empty(), judge: Judge::new() }
    }

    /// The test call: new rising, new falling, held rising, held falling.
    pub fn test(&mut self, file: &[u8], record: &[u8], words: &mut [u64]) -> Result<[u64; 4], u32> {
        if words.len() != STORE_WORDS {
            return Err(1);
        }
        let Caller { netlist, store, judge } = self;
        netlist.read(file)?;
        if record.len() != netlist.record_bytes() {
            return Err(30);
        }
        let vectors = netlist.vectors(record)?;
        store.read(words, netlist.total)?;
        let new = judge.test(netlist, vectors, store)?;
        if new != [0, 0] {
            store.write(words);
        } else {
            words[TESTS] = store.tests;
        }
        Ok([new[0], new[1], store.edges[0].faults, store.edges[1].faults])
    }
}

/// The audit, with the records tested one by one (`apply`) or 64 at a time (`peer_wide::apply`).
pub fn audit(
    apply: impl Fn(&Netlist, &[u8]) -> Result<Store, u32>,
    file: &[u8],
    tests: &[u8],
    report: &[u8],
    words: &mut [u64],
) -> Result<(), u32> {
    if words.len() != STORE_WORDS {
        return Err(1);
    }
    words.fill(0);
    let netlist = Netlist::new(file)?;
    let bytes = netlist.record_bytes();
    if tests.len() % bytes != 0 {
        return Err(33);
    }
    let count = u32::try_from(tests.len() / bytes).map_err(|_| 33u32)?;
    let store = apply(&netlist, tests)?;
    compare(&netlist, &store, count, report)?;
    store.write(words);
    Ok(())
}

/// All records, one by one, from an empty store.
pub fn apply(netlist: &Netlist, tests: &[u8]) -> Result<Store, u32> {
    let (mut store, mut judge) = (Store::empty(), Judge::new());
    for record in tests.chunks_exact(netlist.record_bytes()) {
        judge.test(netlist, netlist.vectors(record)?, &mut store)?;
    }
    Ok(store)
}
