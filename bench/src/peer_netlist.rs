//! The peer's netlist: gates, pins and offsets in lists, and tables of what a gate of one or two pins does.

pub const NETS: usize = 512;
const MAX_COUNT: u64 = 1 << 62;

/// A net's place in a list of all nets; the mask spares the check of the index.
pub const fn place(net: u16) -> usize {
    net as usize & (NETS - 1)
}

// ---------------------------------------------------------------------------------------------- gates

/// All pins where none is controlling, the one pin where it alone is, else none.
const fn only(controlling: u32, all: u32) -> u32 {
    if controlling == 0 {
        all
    } else if controlling & (controlling - 1) == 0 {
        controlling
    } else {
        0
    }
}

/// The value and the open pins of a gate by the values of its pins, one bit for each pin.
pub const fn gate_rule(kind: u8, pins: u32, values: u32) -> (bool, u32) {
    let all = (1 << pins) - 1;
    match kind {
        1 => (values != 0, all),
        2 => (values == 0, all),
        3 | 4 => ((values == all) == (kind == 3), only(!values & all, all)),
        5 | 6 => ((values != 0) == (kind == 5), only(values, all)),
        _ => ((values.count_ones() & 1 == 1) == (kind == 7), all),
    }
}

/// The rule of a gate of one or two pins: the second pin's value counts where the kind has a second pin.
const fn two_pin_rule(kind: u8, values: u32) -> (bool, u32) {
    if kind < 3 { gate_rule(kind, 1, values & 1) } else { gate_rule(kind, 2, values) }
}

/// For a gate of one or two pins: the open pins by kind, two bits for each of the four pairs of values.
const OPEN: [u8; 9] = {
    let mut table = [0; 9];
    let mut at = 4;
    while at < 36 {
        let (_, open) = two_pin_rule(at / 4, at as u32 % 4);
        table[at as usize / 4] |= (open as u8) << (2 * (at % 4));
        at += 1;
    }
    table
};

/// For a gate of one or two pins: the kind less one, the second pin's flags and the first pin's, three bits each, give the gate's flags in the low
/// three bits and above them what passes: the first pin rising, the second rising, the first falling, the second falling.
pub const TWO_PINS: [u8; 512] = {
    let mut table = [0; 512];
    let mut at = 0;
    while at < 512 {
        let (a, b) = (at as u8 & 7, (at >> 3) as u8 & 7);
        let (value, open) = two_pin_rule((at >> 6) as u8 + 1, (a & 1 | (b & 1) << 1) as u32);
        let rise = open as u8 & (a >> 1 & 1 | b & 2);
        let fall = open as u8 & (a >> 2 | b >> 1 & 2);
        let flags = value as u8 | ((rise != 0) as u8) << 1 | ((fall != 0) as u8) << 2;
        table[at] = flags | rise << 3 | fall << 5;
        at += 1;
    }
    table
};

#[derive(Clone, Copy)]
pub struct Gate {
    pub kind: u8,
    pub pins: u8,
    /// The place of the first pin in the lists of pins.
    pub first: u16,
    /// The nets of the first two pins, or one pin's net twice.
    pub a: u16,
    pub b: u16,
    /// The gate's line of `OPEN`.
    pub open: u8,
}

// ---------------------------------------------------------------------------------------------- netlist

/// A netlist as the tests use it.
pub struct Netlist {
    pub inputs: usize,
    pub total: u64,
    pub gates: Vec<Gate>,
    pub pin_nets: Vec<u16>,
    pub pin_offsets: Vec<u64>,
    pub output_nets: Vec<u16>,
    pub output_offsets: Vec<u64>,
    counts: [u64; NETS],
}

/// The number in two bytes.
pub fn u16_at(bytes: &[u8], at: usize) -> usize {
    u16::from_le_bytes([bytes[at], bytes[at + 1]]) as usize
}

impl Netlist {
    /// The netlist of a file.
    pub fn new(file: &[u8]) -> Result<Netlist, u32> {
        let mut netlist = Netlist::blank();
        netlist.read(file)?;
        Ok(netlist)
    }

    /// Room for a netlist.
    pub fn blank() -> Netlist {
        Netlist {
            inputs: 0,
            total: 0,
            gates: Vec::with_capacity(NETS),
            pin_nets: Vec::with_capacity(8 * NETS),
            pin_offsets: Vec::with_capacity(8 * NETS),
            output_nets: Vec::with_capacity(64),
            output_offsets: Vec::with_capacity(64),
            counts: [0; NETS],
        }
    }

    /// Reads a file, whatever was read before.
    pub fn read(&mut self, file: &[u8]) -> Result<(), u32> {
        if file.len() < 8 || &file[..2] != b"NL" {
            return Err(10);
        }
        let [inputs, gates, outputs] = [2, 4, 6].map(|at| u16_at(file, at));
        if !(1..=64).contains(&inputs) || gates > 511 || inputs + gates > NETS || !(1..=64).contains(&outputs) {
            return Err(11);
        }
        (self.inputs, self.total) = (inputs, 0);
        self.gates.clear();
        self.pin_nets.clear();
        self.pin_offsets.clear();
        self.output_nets.clear();
        self.output_offsets.clear();
        self.counts[..inputs].fill(1);
        let mut rest = &file[8..];
        for net in inputs..inputs + gates {
            rest = self.read_gate(rest, net)?;
        }
        self.read_outputs(rest, inputs + gates, outputs)
    }

    /// Reads the gate of a net: the bytes after it.
    #[inline]
    fn read_gate<'a>(&mut self, file: &'a [u8], net: usize) -> Result<&'a [u8], u32> {
        if file.len() < 4 || &file[..2] != b"GT" {
            return Err(12);
        }
        let (kind, pins) = (file[2], file[3] as usize);
        if !(1..=8).contains(&kind) {
            return Err(13);
        }
        if !(if kind < 3 { pins == 1 } else { (2..=8).contains(&pins) }) {
            return Err(14);
        }
        if file.len() < 4 + 2 * pins {
            return Err(12);
        }
        let first = self.pin_nets.len();
        for pin in 0..pins {
            let from = u16_at(file, 4 + 2 * pin);
            if from >= net {
                return Err(15);
            }
            self.pin_nets.push(from as u16);
        }
        let mut count = 0;
        for pin in 0..pins {
            self.pin_offsets.push(count);
            count += self.counts[place(self.pin_nets[first + pin])];
            if count > MAX_COUNT {
                return Err(17);
            }
        }
        self.counts[net] = count;
        let (a, b) = (self.pin_nets[first], self.pin_nets[first + usize::from(pins > 1)]);
        self.gates.push(Gate { kind, pins: pins as u8, first: first as u16, a, b, open: OPEN[kind as usize] });
        Ok(&file[4 + 2 * pins..])
    }

    /// Reads the outputs of a netlist of so many nets, and the end of the file.
    fn read_outputs(&mut self, mut file: &[u8], nets: usize, outputs: usize) -> Result<(), u32> {
        let mut least = 0;
        for _ in 0..outputs {
            if file.len() < 4 || &file[..2] != b"OU" {
                return Err(18);
            }
            let net = u16_at(file, 2);
            if net >= nets || net < least {
                return Err(19);
            }
            least = net + 1;
            self.output_nets.push(net as u16);
            self.output_offsets.push(self.total);
            self.total += self.counts[net];
            if self.total > MAX_COUNT {
                return Err(21);
            }
            file = &file[4..];
        }
        if file.is_empty() { Ok(()) } else { Err(20) }
    }

    pub fn record_bytes(&self) -> usize {
        2 + 2 * self.inputs.div_ceil(8)
    }

    /// V1 and V2 of a record of the right length.
    #[inline]
    pub fn vectors(&self, record: &[u8]) -> Result<(u64, u64), u32> {
        if &record[..2] != b"TP" {
            return Err(31);
        }
        let bytes = self.inputs.div_ceil(8);
        let word = |part: &[u8]| {
            let mut word = [0; 8];
            word[..bytes].copy_from_slice(&part[..bytes]);
            u64::from_le_bytes(word)
        };
        let (v1, v2) = (word(&record[2..2 + bytes]), word(&record[2 + bytes..]));
        if self.inputs < 64 && (v1 | v2) >> self.inputs != 0 {
            return Err(32);
        }
        if v1 == v2 { Err(85) } else { Ok((v1, v2)) }
    }
}
