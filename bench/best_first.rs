//! A plain A*, and what all searches share.
use crate::spaces::Space;
use std::cmp::Reverse;
use std::collections::{BinaryHeap, HashMap};

/// The cost of a cheapest plan, if there is one, and the number of expansions.
pub type Answer = (Option<u32>, u64);

pub struct Row<S> {
    pub g: u32,
    pub parent: S,
    pub closed: bool,
}

pub fn plain<S: Space>(space: &S) -> Answer {
    let mut known: HashMap<S::State, Row<S::State>> = HashMap::new();
    let mut open = BinaryHeap::new();
    let (start, goal) = (space.start(), space.goal());
    known.insert(start, Row { g: 0, parent: start, closed: false });
    let h = space.estimate(start);
    open.push(Reverse((h, h, start)));
    let (mut expanded, mut next) = (0, Vec::new());
    while let Some(Reverse((sum, h, state))) = open.pop() {
        let row = known.get_mut(&state).expect("a row");
        if row.closed || sum != row.g + h {
            continue;
        }
        let g = row.g;
        if state == goal {
            let parent = |state| known[&state].parent;
            assert_eq!(cost_back(start, goal, parent, |to| space.cost(to)), g);
            return (Some(g), expanded);
        }
        row.closed = true;
        expanded += 1;
        space.successors(state, &mut next);
        for &state_after in &next {
            let g = g + space.cost(state_after);
            if known.get(&state_after).is_none_or(|row| g < row.g) {
                known.insert(state_after, Row { g, parent: state, closed: false });
                let h = space.estimate(state_after);
                open.push(Reverse((g + h, h, state_after)));
            }
        }
    }
    (None, expanded)
}

/// What the plan costs that the parents lead back from the goal to the start.
pub fn cost_back<T: Copy + Eq>(
    start: T,
    goal: T,
    parent: impl Fn(T) -> T,
    cost: impl Fn(T) -> u32,
) -> u32 {
    let (mut at, mut sum) = (goal, 0);
    while at != start {
        sum += cost(at);
        at = parent(at);
    }
    sum
}
