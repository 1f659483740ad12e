//! Hash-distributed A*.
use crate::best_first::{cost_back, Answer, Row};
use crate::letters::{self, Outbox, Shared};
use crate::spaces::Space;
use std::cmp::Reverse;
use std::collections::{BinaryHeap, HashMap};
use std::sync::atomic::Ordering;

/// An offer to the thread that owns the state: the state, its parent and its g.
type Offer<S> = (S, S, u32);

struct Owner<'a, S: Space> {
    space: &'a S,
    known: HashMap<S::State, Row<S::State>>,
    open: BinaryHeap<Reverse<(u32, u32, S::State)>>,
    next: Vec<S::State>,
    outbox: Outbox<'a, Offer<S::State>>,
    expanded: u64,
}

fn owner_of<S: Space>(space: &S, state: S::State, owners: usize) -> usize {
    ((u128::from(space.mixed(state)) * owners as u128) >> 64) as usize
}

impl<'a, S: Space> letters::Owner<'a, Offer<S::State>> for Owner<'a, S> {
    fn outbox(&mut self) -> &mut Outbox<'a, Offer<S::State>> {
        &mut self.outbox
    }

    fn take(&mut self, (state, parent, g): Offer<S::State>) {
        let h = self.space.estimate(state);
        let is_worse = self.known.get(&state).is_some_and(|row| row.g <= g);
        if !is_worse && g + h < self.outbox.shared.bound() {
            self.known.insert(state, Row { g, parent, closed: false });
            self.open.push(Reverse((g + h, h, state)));
        }
    }

    fn expand(&mut self) -> bool {
        let Some(Reverse((sum, h, state))) = self.open.pop() else {
            return false;
        };
        if sum >= self.outbox.shared.bound() {
            self.open.clear();
            return false;
        }
        let row = self.known.get_mut(&state).expect("a row");
        if row.closed || sum != row.g + h {
            return true;
        }
        row.closed = true;
        let g = row.g;
        if state == self.space.goal() {
            self.outbox.shared.incumbent.fetch_min(g, Ordering::Relaxed);
            return true;
        }
        self.expanded += 1;
        let mut next = std::mem::take(&mut self.next);
        self.space.successors(state, &mut next);
        for &after in next.iter() {
            let to = owner_of(self.space, after, self.outbox.owners());
            let g = g + self.space.cost(after);
            if to == self.outbox.me {
                self.take((after, state, g));
            } else {
                self.outbox.push(to, (after, state, g));
            }
        }
        self.next = next;
        true
    }
}

pub fn hash_distributed<S: Space>(space: &S, owners: usize) -> Answer {
    let shared = Shared::of(owners);
    let start = space.start();
    let finished: Vec<Owner<S>> = letters::run(&shared, owners, |outbox| {
        let mut owner = Owner {
            space,
            known: HashMap::new(),
            open: BinaryHeap::new(),
            next: Vec::new(),
            outbox,
            expanded: 0,
        };
        if owner_of(space, start, owners) == owner.outbox.me {
            letters::Owner::take(&mut owner, (start, start, 0));
        }
        owner
    });
    let expanded = finished.iter().map(|owner| owner.expanded).sum();
    let cost = shared.incumbent.load(Ordering::SeqCst);
    if cost == u32::MAX {
        return (None, expanded);
    }
    let parent = |state| finished[owner_of(space, state, owners)].known[&state].parent;
    assert_eq!(cost_back(start, space.goal(), parent, |to| space.cost(to)), cost);
    (Some(cost), expanded)
}
