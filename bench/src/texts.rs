//! The converter from .bench text: texts to measure with, and equal answers on whole and on broken texts.

use crate::bench_twin::convert;
use crate::loads::Random;
use crate::timing::{Times, race};
use crate::verified;
use std::fmt::Write;
use std::hint::black_box;

const BUFFER: usize = 10_484;

const KINDS: [&str; 6] = ["AND", "NAND", "OR", "NOR", "XOR", "XNOR"];

/// One input and so many gates of eight pins, each from a random earlier net; the last gate is the output. Names have so many bytes.
pub fn gates_of_eight(gates: usize, bytes: usize, random: &mut Random) -> String {
    let name = |net: usize| format!("n{net:0width$}", width = bytes - 1);
    let mut text = format!("# {gates} gates\nINPUT({})\nOUTPUT({})\n", name(0), name(gates));
    for net in 1..=gates {
        let pins: Vec<String> = (0..8).map(|_| name(random.below(net))).collect();
        writeln!(text, "{} = {}({})", name(net), KINDS[net % 6], pins.join(", ")).expect("a line");
    }
    text
}

/// The answers and buffers of both sides, equal: whether the text is taken.
fn same(text: &[u8], bytes: usize) -> bool {
    let (mut left, mut right) = (vec![0x5A; bytes], vec![0x5A; bytes]);
    let answer = verified::convert(text, &mut left);
    assert_eq!(answer, convert::<false>(text, &mut right), "{}", String::from_utf8_lossy(text));
    assert_eq!(left, right);
    right.fill(0x5A);
    assert_eq!(answer, convert::<true>(text, &mut right));
    assert_eq!(left, right);
    answer.is_ok()
}

/// Equal answers on a text, on its beginnings and on copies with some bytes changed: how many were compared.
pub fn compare(text: &[u8], random: &mut Random) -> usize {
    const BYTES: &[u8] = b"abn019_ (),=#\r\n\tINPUTOXRDF";
    assert!(same(text, BUFFER));
    assert!(!same(text, BUFFER - 1));
    let mut taken = 0;
    for turn in 0..400 {
        let mut other = text.to_vec();
        if turn % 4 == 0 {
            other.truncate(random.below(text.len()));
        }
        for _ in 0..1 + turn % 3 {
            if !other.is_empty() {
                let at = random.below(other.len());
                other[at] = BYTES[random.below(BYTES.len())];
            }
        }
        taken += usize::from(same(&other, BUFFER + turn % 2));
    }
    assert!(0 < taken && taken < 400);
    402
}

/// The time of one conversion: the library beside the twin with the same look-up, and beside the one with a hash table.
pub fn time(text: &[u8], repeats: usize) -> [Times; 2] {
    const CALLS: usize = 20;
    let (mut left, mut right) = (vec![0; BUFFER], vec![0; BUFFER]);
    let mut run = |hashed: bool| {
        let times = race(
            repeats,
            || {
                for _ in 0..CALLS {
                    assert!(verified::convert(black_box(text), &mut left).is_ok());
                }
            },
            || {
                for _ in 0..CALLS {
                    let text = black_box(text);
                    let answer =
                        if hashed { convert::<true>(text, &mut right) } else { convert::<false>(text, &mut right) };
                    assert!(answer.is_ok());
                }
            },
        );
        times.each(CALLS)
    };
    [run(false), run(true)]
}
