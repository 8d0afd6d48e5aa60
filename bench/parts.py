#!/usr/bin/env python3
"""Times parts of the pipeline, side by side with the same work in Rust over std, in one run, and prints ratios.

usage: bench/parts.py [COUNT]      (default: 1000000)

The program of bench/parts does one part COUNT times: `apply` (inserts in batches of 64), `apply_timed` (the same where the ids
are kept by time, under a bound that rises with each batch), `replay` (each insert asked once more, behind the applying),
`encode` and `decode` (an Insert packet). Of the air between nodes (`air`) it sends COUNT packets, a third of them late, to one inbox, and
takes them when all wait; told are the time a packet for a tenth of COUNT and for COUNT, and the memory that a packet of four bytes
takes while it waits. Each is timed as a process, the best of three, less the same process with the part `none`. Where there is no rustc the Rust column is left out. Nothing is written outside a temporary folder. The
program's part `bus` is timed by bench/bus.py.
"""
import os
import sys
import tempfile
import time

from shared import build_parts, rust_program, seconds

PARTS = ["apply", "apply_timed", "replay", "encode", "decode"]

RUST = r"""
use std::cmp::Reverse;
use std::collections::{BinaryHeap, HashMap};
type Id = (u32, u32, u64);
type Token = (u16, u32, u64);
fn insert(n: u32) -> (Id, Token) {
    ((0x0A00_0101, n.wrapping_mul(2_654_435_761) >> 26, n as u64), (7, 1, n as u64))
}
fn batch(number: u32) -> Vec<(Id, Token)> {
    (0..64).map(|k| insert(number * 64 + k)).collect()
}
fn apply_all(count: u32) -> (HashMap<Id, Token>, u64) {
    let mut held = HashMap::new();
    let mut granted = 0;
    for number in 0..count / 64 {
        let batch = batch(number);
        let answers: Vec<bool> = batch.iter().map(|(id, token)| *held.entry(*id).or_insert(*token) == *token).collect();
        granted += answers.iter().filter(|a| **a).count() as u64;
    }
    (held, granted)
}
fn apply_timed(count: u32) -> u64 {
    let mut held: HashMap<Id, Token> = HashMap::new();
    let mut times: BinaryHeap<Reverse<(u64, Id)>> = BinaryHeap::new();
    let mut granted = 0;
    for number in 0..count / 64 {
        let bound = ((number * 64) as u64).saturating_sub(10_000);
        while times.peek().is_some_and(|first| first.0 .0 < bound) {
            let Reverse((_, id)) = times.pop().unwrap();
            held.remove(&id);
        }
        let answers: Vec<bool> = batch(number).iter().map(|(id, token)| {
            if id.2 < bound { return false; }
            let new = !held.contains_key(id);
            if new { held.insert(*id, *token); times.push(Reverse((id.2, *id))); }
            held[id] == *token
        }).collect();
        granted += answers.iter().filter(|a| **a).count() as u64;
    }
    granted
}
fn encode(n: u32) -> Vec<u8> {
    let (id, token) = insert(n);
    let mut bytes = Vec::with_capacity(31);
    bytes.push(0x13);
    bytes.extend_from_slice(&id.0.to_be_bytes());
    bytes.extend_from_slice(&id.1.to_be_bytes());
    bytes.extend_from_slice(&id.2.to_be_bytes());
    bytes.extend_from_slice(&token.0.to_be_bytes());
    bytes.extend_from_slice(&token.1.to_be_bytes());
    bytes.extend_from_slice(&token.2.to_be_bytes());
    bytes
}
fn decode(b: &[u8]) -> Option<(Id, Token)> {
    if b.len() != 31 || b[0] != 0x13 { return None; }
    let u32_at = |at: usize| u32::from_be_bytes(b[at..at + 4].try_into().unwrap());
    let u64_at = |at: usize| u64::from_be_bytes(b[at..at + 8].try_into().unwrap());
    Some(((u32_at(1), u32_at(5), u64_at(9)), (u16::from_be_bytes(b[17..19].try_into().unwrap()), u32_at(19), u64_at(23))))
}
fn main() {
    let words: Vec<String> = std::env::args().collect();
    let count: u32 = words[2].parse().unwrap();
    let done = match words[1].as_str() {
        "apply" => apply_all(count).1,
        "apply_timed" => apply_timed(count),
        "replay" => {
            let (held, _) = apply_all(count);
            (0..count / 64 * 64).filter(|n| { let (id, token) = insert(*n); held.get(&id) == Some(&token) }).count() as u64
        }
        "encode" => (0..count).map(|n| std::hint::black_box(encode(n)).len() as u64).sum(),
        "decode" => {
            let mut bytes = encode(0);
            let mut sum = 0;
            for n in 0..count {
                let len = bytes.len();
                bytes[len - 1] = n as u8;
                sum += decode(std::hint::black_box(&bytes)).map_or(0, |i| i.1 .2);
            }
            sum
        }
        _ => 0,
    };
    println!("{done}");
}
"""


def air(program, count):
    """Prints what a packet through the air costs at a tenth of the count and at the count."""
    spent, memory = {}, {}
    for packets in (0, count // 10, count):
        begin = time.perf_counter()
        child = os.posix_spawn(program, [program, "air", str(packets)], os.environ, file_actions=[(os.POSIX_SPAWN_OPEN, 1, os.devnull, os.O_WRONLY, 0)])
        usage = os.wait4(child, 0)[2]
        spent[packets], memory[packets] = time.perf_counter() - begin, usage.ru_maxrss * 1024
    few, many = count // 10, count
    each = {packets: (spent[packets] - spent[0]) / packets for packets in (few, many)}
    print(f"air          {each[many] * 1e6:8.2f} microseconds a packet with {many} in the inbox, {each[many] / each[few]:.2f} of that with {few}")
    print(f"             {(memory[many] - memory[0]) / many:8.0f} bytes a packet that waits")


def main():
    count = sys.argv[1] if len(sys.argv) > 1 else "1000000"
    ours = build_parts()
    with tempfile.TemporaryDirectory() as folder:
        rust = rust_program(folder, RUST)
        programs = [("photon", ours)] + ([("rust", rust)] if rust else [])
        idle = {name: seconds([path, "none", count])[0] for name, path in programs}
        for part in PARTS:
            spent, printed = {}, set()
            for name, path in programs:
                whole, text = seconds([path, part, count])
                spent[name] = max(whole - idle[name], 1e-9)
                printed.add(text)
            line = f"{part:12} {int(count) / spent['photon'] / 1e6:8.2f} million a second"
            if rust:
                line += f"; time by Rust's over std: {spent['photon'] / spent['rust']:.2f}"
            if len(printed) > 1:
                line += f"; DIFFERENT ANSWERS {sorted(printed)}"
            print(line)
    air(ours, int(count))
    return 0


if __name__ == "__main__":
    sys.exit(main())
