// The choice of a block alone, in ordinary Rust: a port of the program's three forms, for
// bench/leases. It prints, for each number of blocks, the nanoseconds of a lease's part in it: one
// choice, and the keys of nine blocks noted anew. `cargo` isn't needed: rustc -O builds it.
use std::hint::black_box;

#[derive(Clone, Copy, PartialEq, Eq, PartialOrd, Ord)]
enum Key {
    Sum {
        sum: u128,
        h: u64,
    },
    #[allow(dead_code)]
    Dead,
}

type Noted = Option<Key>;

const NEAR: usize = 9;

struct Machine {
    keys: Vec<Noted>,
    busy: Vec<u32>,
    hot_near: Vec<u32>,
    seats: Vec<Option<u32>>,
    interference: Vec<Vec<u32>>,
    winners: Vec<(Noted, u32)>,
}

fn comes_before(key: Noted, block: u32, other_key: Noted, other: u32) -> bool {
    match (key, other_key) {
        (Some(key), Some(other_key)) => (key, block) < (other_key, other),
        (Some(_), None) => true,
        (None, Some(_)) => false,
        (None, None) => block < other,
    }
}

impl Machine {
    fn new(count: usize) -> Machine {
        let mut machine = Machine {
            keys: vec![None; count],
            busy: vec![0; count],
            hot_near: vec![0; count],
            seats: vec![None; 4],
            interference: (0..count)
                .map(|at| (0..24).map(|step| ((at + 1 + step) % count) as u32).collect())
                .collect(),
            winners: vec![(None, 0); count],
        };
        for at in (1..count).rev() {
            machine.play(at);
        }
        machine
    }

    // The lease is out, or home again: its interference is one more, or one less.
    fn lease(&mut self, own: u32, change: u32) {
        for other in &self.interference[own as usize] {
            let busy = &mut self.busy[*other as usize];
            *busy = busy.wrapping_add(change);
        }
        self.seats[0] = (change == 1).then_some(own);
    }

    fn node(&self, at: usize) -> (Noted, u32) {
        let count = self.keys.len();
        if at < count {
            self.winners[at]
        } else {
            (self.keys[at - count], (at - count) as u32)
        }
    }

    fn play(&mut self, at: usize) {
        let (left, right) = (self.node(2 * at), self.node(2 * at + 1));
        let ahead = comes_before(right.0, right.1, left.0, left.1);
        self.winners[at] = if ahead { right } else { left };
    }

    // A renewal's test, as it was: the own interference is looked up for each block.
    fn passes_before(&self, own: u32, block: u32) -> bool {
        if self.hot_near[block as usize] != 0 {
            return false;
        }
        if block == own {
            return true;
        }
        let near = u32::from(self.interference[own as usize].contains(&block));
        (self.busy[block as usize].wrapping_sub(near) == 0)
            & !self.seats.iter().any(|seat| *seat == Some(block))
    }

    fn passes(&self, own: u32, block: u32) -> bool {
        if self.hot_near[block as usize] != 0 {
            return false;
        }
        if block == own {
            return true;
        }
        let busy = self.busy[block as usize];
        let is_clear =
            if busy == 1 { self.interference[own as usize].contains(&block) } else { busy == 0 };
        is_clear && !self.seats.iter().any(|seat| *seat == Some(block))
    }

    fn choice_before(&self, own: u32) -> Option<u32> {
        let mut best: Option<u32> = None;
        for block in 0..self.keys.len() as u32 {
            if self.keys[block as usize].is_some() && self.passes_before(own, block) {
                best = match best {
                    Some(other) if !self.is_better(block, other) => Some(other),
                    _ => Some(block),
                };
            }
        }
        best
    }

    fn is_better(&self, block: u32, other: u32) -> bool {
        comes_before(self.keys[block as usize], block, self.keys[other as usize], other)
    }

    fn choice_by_keys(&self, own: u32) -> Option<u32> {
        let mut best: Option<u32> = None;
        for block in 0..self.keys.len() as u32 {
            let improves = self.keys[block as usize].is_some()
                && best.is_none_or(|other| self.is_better(block, other));
            if improves && self.passes(own, block) {
                best = Some(block);
            }
        }
        best
    }

    fn choice_by_tree(
        &self,
        own: u32,
        at: usize,
        best: Option<(Noted, u32)>,
    ) -> Option<(Noted, u32)> {
        let winner = self.node(at);
        let improves = winner.0.is_some()
            && best.is_none_or(|other| comes_before(winner.0, winner.1, other.0, other.1));
        if !improves {
            return best;
        }
        if self.passes(own, winner.1) {
            return Some(winner);
        }
        if at >= self.keys.len() {
            return best;
        }
        let left = self.choice_by_tree(own, 2 * at, best);
        self.choice_by_tree(own, 2 * at + 1, left)
    }

    fn note(&mut self, block: usize, key: Noted, tree: bool) {
        self.keys[block] = key;
        if tree {
            let mut at = (self.keys.len() + block) / 2;
            while at > 0 {
                self.play(at);
                at /= 2;
            }
        }
    }
}

// Nanoseconds of processor time so far, as Linux tells them.
fn processor_time() -> f64 {
    let text = std::fs::read_to_string("/proc/thread-self/schedstat").expect("Linux tells it");
    text.split(' ').next().and_then(|word| word.parse().ok()).expect("a number comes first")
}

fn main() {
    println!("blocks | ns each block | keys first | tree of winners | ratios");
    for count in [256, 512, 4096] {
        let mut best = [f64::MAX; 3];
        let mut sums = [0u64; 3];
        for _ in 0..3 {
            for (form, least) in best.iter_mut().enumerate() {
                let mut machine = Machine::new(count);
                let mut drawn = 1u64;
                sums[form] = 0;
                let rounds = 60_000;
                let begun = processor_time();
                for _ in 0..rounds {
                    drawn =
                        drawn.wrapping_mul(6364136223846793005).wrapping_add(1442695040888963407);
                    let first = (drawn >> 33) as usize % count;
                    for step in 0..NEAR {
                        let sum = u128::from(drawn >> (20 + step)) % 1000;
                        let key = (sum > 50).then_some(Key::Sum { sum, h: drawn >> 60 });
                        machine.note((first + step * step) % count, key, form == 2);
                    }
                    let own = first as u32;
                    machine.lease(own, 1);
                    let chosen = match form {
                        0 => machine.choice_before(own),
                        1 => machine.choice_by_keys(own),
                        _ => machine.choice_by_tree(own, 1, None).map(|winner| winner.1),
                    };
                    machine.lease(own, u32::MAX);
                    sums[form] = sums[form]
                        .wrapping_mul(31)
                        .wrapping_add(u64::from(black_box(chosen).unwrap_or(9999)));
                }
                *least = least.min((processor_time() - begun) / rounds as f64);
            }
        }
        assert!(sums[0] == sums[1] && sums[0] == sums[2], "the forms choose other blocks");
        println!(
            "{count} | {:.0} | {:.0} | {:.0} | {:.2}, {:.2}",
            best[0],
            best[1],
            best[2],
            best[1] / best[0],
            best[2] / best[0]
        );
    }
}
