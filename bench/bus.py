#!/usr/bin/env python3
"""Times the turn lock, side by side with the same work under a std::sync::Mutex in Rust, in one run, and prints ratios.

usage: bench/bus.py [TURNS]      (default: 200000)

The program is that of bench/parts with its part `bus`: each of 1, 4 and 8 threads takes TURNS turns of its node in all, a begin and an
end each, without packets, so that what is timed is the lock and the little that each call changes. The Rust program keeps the
number of entries, the nodes' phases and the number of open turns under a Mutex. Each is timed as a process, the best of three, less
the same process with no turn. Where there is no rustc the Rust column is left out. Nothing is written outside a temporary folder.
"""
import sys
import tempfile

from shared import build_parts, rust_program, seconds

RUST = r"""
use std::sync::{Arc, Mutex};
#[derive(Clone, Copy, PartialEq)]
enum Phase { Down, Idle, Busy }
#[allow(dead_code)]
enum Input { Start, Tick, Own, Packet { from: u16, bytes: Arc<[u8]> } }
struct Air { phases: Vec<Phase>, busy: usize, entries: usize }
impl Air {
    fn begin(&mut self, node: u16) -> Option<Input> {
        let input = match self.phases[node as usize] {
            Phase::Down => Input::Start,
            Phase::Idle => Input::Own,
            Phase::Busy => return None,
        };
        self.entries += 1;
        self.phases[node as usize] = Phase::Busy;
        self.busy += 1;
        Some(input)
    }
    fn end(&mut self, node: u16, packets: Vec<(u16, Arc<[u8]>)>) {
        drop(packets);
        self.entries += 1;
        self.phases[node as usize] = Phase::Idle;
        self.busy -= 1;
    }
}
fn main() {
    let words: Vec<String> = std::env::args().collect();
    let threads: usize = words[1].parse().unwrap();
    let turns: u32 = words[2].parse().unwrap();
    let air = Mutex::new(Air { phases: vec![Phase::Down; threads], busy: 0, entries: 0 });
    std::thread::scope(|scope| {
        for node in 0..threads as u16 {
            let air = &air;
            scope.spawn(move || for _ in 0..turns {
                let begun = air.lock().unwrap().begin(node);
                if begun.is_none() { return; }
                air.lock().unwrap().end(node, Vec::new());
            });
        }
    });
    println!("{}", air.lock().unwrap().entries);
}
"""


def main():
    turns = int(sys.argv[1]) if len(sys.argv) > 1 else 200_000
    ours = build_parts()
    with tempfile.TemporaryDirectory() as folder:
        rust = rust_program(folder, RUST)
        for threads in (1, 4, 8):
            each = turns // threads
            cost, printed = {}, set()
            for name, words in (("here", [ours, "bus"]), ("Rust", [rust])):
                if words[0] is None:
                    continue
                start, _ = seconds([*words, str(threads), "0"])
                spent, said = seconds([*words, str(threads), str(each)])
                cost[name] = (spent - start) / (each * threads)
                printed.add(said)
            line = f"{threads} threads: {cost['here'] * 1e9:8.0f} ns a turn"
            if "Rust" in cost:
                line += f", {cost['here'] / cost['Rust']:.2f} of the Mutex's {cost['Rust'] * 1e9:.0f}"
            if len(printed) > 1:
                line += f"; DIFFERENT ANSWERS {sorted(printed)}"
            print(line)
    return 0


if __name__ == "__main__":
    sys.exit(main())
