//! The peer's audit with 64 records at a time: a net's values, and whether it has rising and falling runs, are words with one bit for each record.
//! The runs are then built record by record, for the nets alone that have any.

use crate::peer::Judge;
use crate::peer_netlist::{Gate, NETS, Netlist, gate_rule, place};
use crate::peer_store::Store;

/// Bit `t` of word `j` becomes bit `j` of word `t`.
fn transpose(words: &mut [u64; 64]) {
    let mut width = 32;
    let mut mask = 0x0000_0000_FFFF_FFFFu64;
    while width != 0 {
        let mut at = 0;
        while at < 64 {
            let moved = ((words[at] >> width) ^ words[at | width]) & mask;
            words[at] ^= moved << width;
            words[at | width] ^= moved;
            at = ((at | width) + 1) & !width;
        }
        width >>= 1;
        mask ^= mask << width;
    }
}

/// For each net the values under V2 of 64 records, and for each edge which of them give it runs.
struct Block {
    values: [u64; NETS],
    live: [[u64; NETS]; 2],
    /// The same for each record: for each edge the nets that have runs, 64 to a word.
    nets: [[[u64; 64]; NETS / 64]; 2],
}

/// All records, 64 at a time, from an empty store.
pub fn apply(netlist: &Netlist, tests: &[u8]) -> Result<Store, u32> {
    let (mut store, mut judge) = (Store::empty(), Judge::new());
    let mut block = Box::new(Block { values: [0; NETS], live: [[0; NETS]; 2], nets: [[[0; 64]; NETS / 64]; 2] });
    for records in tests.chunks(64 * netlist.record_bytes()) {
        let (good, refused) = block.read(netlist, records);
        block.simulate(netlist);
        block.turn(netlist.inputs + netlist.gates.len());
        for record in 0..good {
            judge.live_runs(netlist, &block, record)?;
            judge.add(netlist, &mut store)?;
        }
        refused?;
    }
    Ok(store)
}

impl Block {
    /// The vectors of up to 64 records: how many come before the first that is refused, and its refusal.
    fn read(&mut self, netlist: &Netlist, records: &[u8]) -> (usize, Result<(), u32>) {
        let (mut v1, mut v2) = ([0; 64], [0; 64]);
        let (mut good, mut refused) = (0, Ok(()));
        for record in records.chunks_exact(netlist.record_bytes()) {
            match netlist.vectors(record) {
                Ok(vectors) => (v1[good], v2[good]) = vectors,
                Err(refusal) => {
                    refused = Err(refusal);
                    break;
                }
            }
            good += 1;
        }
        transpose(&mut v1);
        transpose(&mut v2);
        for input in 0..netlist.inputs {
            self.values[input] = v2[input];
            self.live[0][input] = !v1[input] & v2[input];
            self.live[1][input] = v1[input] & !v2[input];
        }
        (good, refused)
    }

    /// The words of the gates.
    fn simulate(&mut self, netlist: &Netlist) {
        let Block { values, live: [rise, fall], .. } = self;
        for (number, gate) in netlist.gates.iter().enumerate() {
            let net = (netlist.inputs + number) & (NETS - 1);
            if gate.pins > 2 {
                (values[net], rise[net], fall[net]) = many_pins(netlist, gate, values, rise, fall);
                continue;
            }
            let (pin_a, pin_b) = (place(gate.a), place(gate.b));
            let (a, b) = (values[pin_a], values[pin_b]);
            let (value, open_a, open_b) = match gate.kind {
                1 => (a, !0, 0),
                2 => (!a, !0, 0),
                3 => (a & b, b, a),
                4 => (!(a & b), b, a),
                5 => (a | b, !b, !a),
                6 => (!(a | b), !b, !a),
                7 => (a ^ b, !0, !0),
                _ => (!(a ^ b), !0, !0),
            };
            values[net] = value;
            rise[net] = rise[pin_a] & open_a | rise[pin_b] & open_b;
            fall[net] = fall[pin_a] & open_a | fall[pin_b] & open_b;
        }
    }

    /// Turns the words of so many nets into words of the records.
    fn turn(&mut self, nets: usize) {
        for (live, turned) in self.live.iter().zip(&mut self.nets) {
            for (number, (words, turned)) in live.chunks_exact(64).zip(turned).enumerate().take(nets.div_ceil(64)) {
                turned.copy_from_slice(words);
                if number == nets / 64 {
                    turned[nets % 64..].fill(0);
                }
                transpose(turned);
            }
        }
    }

    /// Whether a net has runs of an edge in a record.
    #[inline]
    fn has(&self, edge: usize, record: usize, net: u16) -> bool {
        self.nets[edge][place(net) / 64][record] >> (net % 64) & 1 == 1
    }

    /// A net's value in a record.
    #[inline]
    fn value(&self, record: usize, net: u16) -> u64 {
        self.values[place(net)] >> record & 1
    }
}

/// The words of a gate of three to eight pins. A pin is open where no pin is controlling, or it alone.
#[inline]
fn many_pins(
    netlist: &Netlist,
    gate: &Gate,
    values: &[u64; NETS],
    rise: &[u64; NETS],
    fall: &[u64; NETS],
) -> (u64, u64, u64) {
    let first = gate.first as usize;
    let pins = &netlist.pin_nets[first..first + gate.pins as usize];
    let flip = if gate.kind == 3 || gate.kind == 4 { !0 } else { 0 };
    let (mut one, mut two, mut parity) = (0, 0, 0);
    for pin in pins {
        let value = values[place(*pin)];
        parity ^= value;
        two |= one & (value ^ flip);
        one |= value ^ flip;
    }
    let (mut risen, mut fallen) = (0, 0);
    for pin in pins {
        let pin = place(*pin);
        let open = if gate.kind >= 7 { !0 } else { !one | !two & (values[pin] ^ flip) };
        risen |= open & rise[pin];
        fallen |= open & fall[pin];
    }
    let value = match gate.kind {
        3 | 6 => !one,
        4 | 5 => one,
        7 => parity,
        _ => !parity,
    };
    (value, risen, fallen)
}

impl Judge {
    /// The runs of one record of a block.
    fn live_runs(&mut self, netlist: &Netlist, block: &Block, record: usize) -> Result<(), u32> {
        for edge in 0..2 {
            self.work[edge].len = 0;
            for net in &netlist.output_nets {
                self.flags[place(*net)] &= !(2 << edge);
            }
            for word in 0..(netlist.inputs + netlist.gates.len()).div_ceil(64) {
                let mut nets = block.nets[edge][word][record];
                while nets != 0 {
                    let net = 64 * word + nets.trailing_zeros() as usize;
                    nets &= nets - 1;
                    self.flags[net & (NETS - 1)] |= 2 << edge;
                    if net < netlist.inputs {
                        self.work[edge].input(net);
                    } else {
                        self.gate_runs(netlist, block, record, edge, net)?;
                    }
                }
            }
        }
        Ok(())
    }

    /// The runs of a gate that has runs.
    #[inline]
    fn gate_runs(
        &mut self,
        netlist: &Netlist,
        block: &Block,
        record: usize,
        edge: usize,
        net: usize,
    ) -> Result<(), u32> {
        let work = &mut self.work[edge];
        let (gate, begin) = (&netlist.gates[net - netlist.inputs], work.len);
        let first = gate.first as usize;
        if gate.pins <= 2 {
            let open = gate.open >> (2 * (block.value(record, gate.a) | block.value(record, gate.b) << 1));
            if open & 1 != 0 && block.has(edge, record, gate.a) {
                work.append(begin, gate.a, 0)?;
            }
            if open & 2 != 0 && block.has(edge, record, gate.b) {
                work.append(begin, gate.b, netlist.pin_offsets[first + 1])?;
            }
        } else {
            let pins = &netlist.pin_nets[first..first + gate.pins as usize];
            let values =
                pins.iter().enumerate().fold(0, |seen, (pin, net)| seen | (block.value(record, *net) as u32) << pin);
            let (_, open) = gate_rule(gate.kind, pins.len() as u32, values);
            for (pin, net) in pins.iter().enumerate() {
                if open >> pin & 1 == 1 && block.has(edge, record, *net) {
                    work.append(begin, *net, netlist.pin_offsets[first + pin])?;
                }
            }
        }
        work.close(net, begin);
        Ok(())
    }
}
