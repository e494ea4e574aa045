//! The load call beside a plain writer: one vector's test records for each call, the state handed on from call to call.

use crate::timing::{Times, race};
use crate::verified;
use std::hint::black_box;

/// The least bytes of a buffer for one vector's records.
pub const BYTES: usize = 2304;

/// The numbers of inputs that are measured: a byte or less, more bytes, and the greatest.
pub const INPUTS: [u32; 6] = [1, 5, 14, 32, 33, 64];

/// The state after a vector is drawn from a state, and the vector.
#[inline]
pub fn draw(mut state: u32, inputs: u32) -> (u32, u64) {
    let mut vector = 0;
    for input in 0..inputs {
        state = state.wrapping_mul(1664525).wrapping_add(1013904223);
        vector |= u64::from(state >> 31) << input;
    }
    (state, vector)
}

/// The vector that is drawn from a state, and its records. Not inlined, as the library's call is not.
#[inline(never)]
pub fn load(state: u32, inputs: u32, records: &mut [u8]) -> Result<(u32, usize), u32> {
    if records.len() < BYTES {
        return Err(4);
    }
    if !(1..=64).contains(&inputs) {
        return Err(11);
    }
    let (state, vector) = draw(state, inputs);
    let bytes = inputs.div_ceil(8) as usize;
    let mut free = records.chunks_exact_mut(2 + 2 * bytes);
    for input in 0..inputs {
        let (low, high) = (vector & !(1 << input), vector | 1 << input);
        for (v1, v2) in [(low, high), (high, low)] {
            let record = free.next().expect("2,304 bytes hold the records of 64 inputs");
            record[..2].copy_from_slice(b"TP");
            let (first, second) = record[2..].split_at_mut(bytes);
            put(first, v1);
            put(second, v2);
        }
    }
    Ok((state, 2 * inputs as usize * (2 + 2 * bytes)))
}

/// A vector's bytes, low byte first.
fn put(bytes: &mut [u8], vector: u64) {
    for (place, byte) in bytes.iter_mut().enumerate() {
        *byte = (vector >> (8 * place)) as u8;
    }
}

/// Equal answers and equal bytes, for calls that are taken and calls that are refused; how many were compared.
pub fn compare() -> usize {
    let mut compared = 0;
    let mut state = 1;
    for inputs in (0..=66).chain([u32::MAX]) {
        for length in [0, BYTES - 1, BYTES, BYTES + 1] {
            let (mut left, mut right) = (vec![0xA5; length], vec![0xA5; length]);
            let answer = verified::load(state, inputs, &mut left);
            assert_eq!(answer, load(state, inputs, &mut right), "state {state}, {inputs} inputs, {length} bytes");
            assert_eq!(left, right, "state {state}, {inputs} inputs, {length} bytes");
            state = answer.map_or(state.wrapping_mul(3), |(next, _)| next);
            compared += 1;
        }
    }
    compared
}

/// The times of so many calls for a number of inputs, and the bytes that they write.
pub fn time(inputs: u32, repeats: usize) -> (Times, usize) {
    let calls = 2_000_000 / inputs;
    let (mut left, mut right) = (vec![0; BYTES], vec![0; BYTES]);
    let times = race(
        repeats,
        || {
            (0..calls).fold(1, |state, _| verified::load(state, inputs, black_box(&mut left)).expect("a taken call").0);
        },
        || {
            (0..calls).fold(1, |state, _| load(state, inputs, black_box(&mut right)).expect("a taken call").0);
        },
    );
    let (_, length) = load(1, inputs, &mut right).expect("a taken call");
    (times, calls as usize * length)
}
