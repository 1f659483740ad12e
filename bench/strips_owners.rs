//! Hash-distributed A* over STRIPS tasks, for strips_astar.rs. It is hash_distributed.rs with hmax:
//! each row keeps its estimate, and each thread has counters of its own.
use crate::letters::{self, Outbox, Shared};
use crate::{Hmax, Set, Step, Task, set_of, step_of};
use std::cmp::Reverse;
use std::collections::{BinaryHeap, HashMap};
use std::sync::atomic::Ordering;

/// An offer to the thread that owns the state: the state, its parent, its g, and the last step's
/// cost.
type Offer<const W: usize> = (Set<W>, Set<W>, u32, u32);

struct Row<const W: usize> {
    g: u32,
    h: u32,
    parent: Set<W>,
    price: u32,
    closed: bool,
}

struct Owner<'a, const W: usize> {
    steps: &'a [Step<W>],
    goal: Set<W>,
    hmax: Hmax,
    known: HashMap<Set<W>, Row<W>>,
    open: BinaryHeap<Reverse<(u32, u32, Set<W>)>>,
    outbox: Outbox<'a, Offer<W>>,
    /// The cheapest goal that it took, with its g.
    best: Option<(u32, Set<W>)>,
    expanded: u64,
}

fn owner_of<const W: usize>(state: &Set<W>, owners: usize) -> usize {
    const ODD: u64 = 0x9e37_79b9_7f4a_7c15;
    let mixed = state.iter().fold(0_u64, |sum, word| (sum.rotate_left(5) ^ word).wrapping_mul(ODD));
    ((u128::from(mixed) * owners as u128) >> 64) as usize
}

impl<'a, const W: usize> letters::Owner<'a, Offer<W>> for Owner<'a, W> {
    fn outbox(&mut self) -> &mut Outbox<'a, Offer<W>> {
        &mut self.outbox
    }

    fn take(&mut self, (state, parent, g, price): Offer<W>) {
        let h = match self.known.get_mut(&state) {
            Some(row) if row.g <= g => return,
            Some(row) => {
                (row.g, row.parent, row.price, row.closed) = (g, parent, price, false);
                row.h
            }
            None => {
                let h = self.hmax.estimate(&state).unwrap_or(u32::MAX);
                self.known.insert(state, Row { g, h, parent, price, closed: false });
                h
            }
        };
        if h != u32::MAX && g + h < self.outbox.shared.bound() {
            self.open.push(Reverse((g + h, h, state)));
        }
    }

    fn expand(&mut self) -> bool {
        let Some(Reverse((sum, h, state))) = self.open.pop() else {
            return false;
        };
        if sum >= self.outbox.shared.bound() {
            self.open.clear();
            return false;
        }
        let row = self.known.get_mut(&state).expect("a row");
        if row.closed || sum != row.g + h {
            return true;
        }
        row.closed = true;
        let g = row.g;
        if (0..W).all(|i| state[i] & self.goal[i] == self.goal[i]) {
            self.outbox.shared.incumbent.fetch_min(g, Ordering::Relaxed);
            self.best = Some(self.best.map_or((g, state), |best| best.min((g, state))));
            return true;
        }
        self.expanded += 1;
        for step in self.steps {
            if (0..W).any(|i| state[i] & step.needs[i] != step.needs[i]) {
                continue;
            }
            let next: Set<W> = std::array::from_fn(|i| state[i] & !step.deletes[i] | step.adds[i]);
            let offer = (next, state, g + step.cost, step.cost);
            let to = owner_of(&next, self.outbox.owners());
            if to == self.outbox.me {
                self.take(offer);
            } else {
                self.outbox.push(to, offer);
            }
        }
        true
    }
}

/// The cost of a cheapest plan, if there is one, and the number of expansions of all threads.
pub fn search<const W: usize>(task: &Task, owners: usize) -> (Option<u32>, u64) {
    let shared = Shared::of(owners);
    let steps: Vec<Step<W>> = task.actions.iter().map(step_of).collect();
    let start: Set<W> = set_of(&task.start);
    let finished: Vec<Owner<W>> = letters::run(&shared, owners, |outbox| {
        let mut owner = Owner {
            steps: &steps,
            goal: set_of(&task.goal),
            hmax: Hmax::of(task),
            known: HashMap::new(),
            open: BinaryHeap::new(),
            outbox,
            best: None,
            expanded: 0,
        };
        if owner_of(&start, owners) == owner.outbox.me {
            letters::Owner::take(&mut owner, (start, start, 0, 0));
        }
        owner
    });
    let expanded = finished.iter().map(|owner| owner.expanded).sum();
    let Some((cost, goal)) = finished.iter().filter_map(|owner| owner.best).min() else {
        return (None, expanded);
    };
    let (mut at, mut sum) = (goal, 0);
    while at != start {
        let row = &finished[owner_of(&at, owners)].known[&at];
        (sum, at) = (sum + row.price, row.parent);
    }
    assert_eq!(sum, cost);
    (Some(cost), expanded)
}
