//! Plain optimal searches in ordinary Rust, as yardsticks for the proved program. Nothing here is
//! proved. `rustc -O -o plain_astar plain_astar.rs` builds it, with its modules beside it; only std
//! is used.
//!
//! Usage: plain_astar SEARCH grid MAP SCENARIO [--swamp]
//!        plain_astar SEARCH tiles BOARD
//!        plain_astar measure PROGRAM WORD ..
//!
//! SEARCH is one of
//! - `plain`: A* (Hart, Nilsson, Raphael 1968) over std's `BinaryHeap` and `HashMap`;
//! - `tight`: A* over arrays (maps) or a hash table of packed 64-bit states (boards), with the open
//!   list in buckets by f = g + h, for boards also by h, the latest row of a bucket first;
//! - `hash:N`: hash-distributed A* (Kishimoto, Fukunaga, Botea 2009) with N threads, each with a
//!   `BinaryHeap` and a `HashMap` of its own for the states that hash to it.
//!
//! All have the Manhattan distance and steps of cost 1, or with `--swamp` of cost 2 into an `S`
//! cell of a map. A search follows its plan back to the start, and prints the plan's cost, or
//! `none`, and how many rows it expanded.
//!
//! `measure` runs a program and appends a line to what it prints: the microseconds of processor
//! time and of wall time, the peak memory in KiB, and the status.
mod best_first;
mod hash_distributed;
mod letters;
mod spaces;
mod tight;

use best_first::Answer;
use spaces::{Grid, Space, Tiles};
use std::env;
use std::process::Command;
use std::time::Instant;

extern "C" {
    fn getrusage(who: i32, usage: *mut [i64; 18]) -> i32;
}

/// Runs a program from this small process, so that the peak memory is the program's own.
fn measure(words: &[String]) {
    const CHILDREN: i32 = -1;
    let began = Instant::now();
    let status = Command::new(&words[0]).args(&words[1..]).status().expect("a program");
    let wall = began.elapsed().as_micros();
    let mut usage = [0i64; 18];
    // SAFETY: Linux on 64 bits fills 18 words: two times of two words each, and 14 counts.
    let filled = unsafe { getrusage(CHILDREN, &mut usage) };
    assert_eq!(filled, 0);
    let processor = (usage[0] + usage[2]) * 1_000_000 + usage[1] + usage[3];
    println!("{processor} {wall} {} {}", usage[4], status.code().unwrap_or(-1));
}

fn search<S: Space>(name: &str, space: &S, tight: impl Fn(&S) -> Answer) -> Answer {
    match name {
        "plain" => best_first::plain(space),
        "tight" => tight(space),
        _ => {
            let threads = name.strip_prefix("hash:").expect("plain, tight or hash:N");
            hash_distributed::hash_distributed(space, threads.parse().expect("a number of threads"))
        }
    }
}

fn main() {
    let words: Vec<String> = env::args().skip(1).collect();
    let (cost, expanded) = match words.iter().map(String::as_str).collect::<Vec<_>>()[..] {
        ["measure", ..] => return measure(&words[1..]),
        [name, "grid", map, scenario] => {
            search(name, &Grid::read(map, scenario, false), tight::tight_grid::<false>)
        }
        [name, "grid", map, scenario, "--swamp"] => {
            search(name, &Grid::read(map, scenario, true), tight::tight_grid::<true>)
        }
        [name, "tiles", board] => search(name, &Tiles::read(board), tight::tight_tiles),
        _ => panic!(
            "SEARCH grid MAP SCENARIO [--swamp], or SEARCH tiles BOARD, or measure PROGRAM WORD .."
        ),
    };
    println!("{} {expanded}", cost.map_or("none".to_string(), |cost| cost.to_string()));
}
