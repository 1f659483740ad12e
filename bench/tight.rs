//! A* over arrays (maps) or a hash table of packed boards, with the open list in buckets.
use crate::best_first::{cost_back, Answer};
use crate::spaces::{mix, slid, Grid, Space, Tiles};

/// The open list: a stack for each key. The latest value of the least key comes first.
struct Buckets<T> {
    stacks: Vec<Vec<T>>,
    /// No lesser key has a value.
    least: usize,
}

impl<T> Buckets<T> {
    fn push(&mut self, key: usize, value: T) {
        if key >= self.stacks.len() {
            self.stacks.resize_with(key + 1, Vec::new);
        }
        self.least = self.least.min(key);
        self.stacks[key].push(value);
    }

    fn pop(&mut self) -> Option<(usize, T)> {
        while self.least < self.stacks.len() {
            if let Some(value) = self.stacks[self.least].pop() {
                return Some((self.least, value));
            }
            self.stacks[self.least] = Vec::new();
            self.least += 1;
        }
        None
    }
}

/// A space that keeps the least known g of each state. A node is a state with a g.
trait Nodes {
    type Node: Copy;
    fn first(&mut self) -> (usize, Self::Node);
    /// Whether no lesser g is known of the state.
    fn is_current(&self, node: Self::Node) -> bool;
    fn is_goal(&self, node: Self::Node) -> bool;
    fn offer_successors(&mut self, key: usize, node: Self::Node, open: &mut Buckets<Self::Node>);
    /// The cost of the plan that the moves to the goal's node make.
    fn plan_cost(&self, node: Self::Node) -> u32;
}

fn search<N: Nodes>(mut nodes: N) -> Answer {
    let mut open = Buckets { stacks: Vec::new(), least: 0 };
    let (key, node) = nodes.first();
    open.push(key, node);
    let mut expanded = 0;
    while let Some((key, node)) = open.pop() {
        if !nodes.is_current(node) {
            continue;
        }
        if nodes.is_goal(node) {
            return (Some(nodes.plan_cost(node)), expanded);
        }
        expanded += 1;
        nodes.offer_successors(key, node, &mut open);
    }
    (None, expanded)
}

// ---- maps ----

/// A map with a border of cells that nothing improves: g is 0 there, as in cells of other
/// classes. The key is half of f less that of the start: f of a successor is f or f + 2. With swamp
/// it is f less that of the start, since f may also rise by 1 or 3.
struct Cells<'a, const SWAMP: bool> {
    grid: &'a Grid,
    stride: u32,
    least: Vec<u32>,
    moves: Vec<u8>,
    /// What a step into a place costs; without swamp there are none.
    costs: Vec<u8>,
    goal: u32,
}

pub fn tight_grid<const SWAMP: bool>(grid: &Grid) -> Answer {
    let stride = grid.width + 2;
    let mut least = vec![0u32; (stride * (grid.height + 2)) as usize];
    let class = grid.cells[grid.start as usize];
    for (cell, _) in grid.cells.iter().enumerate().filter(|(_, byte)| **byte == class) {
        least[place(grid, cell as u32) as usize] = u32::MAX;
    }
    let moves = vec![0u8; least.len()];
    let mut costs = vec![1u8; if SWAMP { least.len() } else { 0 }];
    if SWAMP {
        for (cell, cost) in grid.costs.iter().enumerate() {
            costs[place(grid, cell as u32) as usize] = *cost;
        }
    }
    let goal = place(grid, grid.goal);
    search(Cells::<SWAMP> { grid, stride, least, moves, costs, goal })
}

fn place(grid: &Grid, cell: u32) -> u32 {
    (cell / grid.width + 1) * (grid.width + 2) + cell % grid.width + 1
}

impl<const SWAMP: bool> Nodes for Cells<'_, SWAMP> {
    type Node = (u16, u16, u32);

    fn first(&mut self) -> (usize, (u16, u16, u32)) {
        let (start, width) = (self.grid.start, self.grid.width);
        self.least[place(self.grid, start) as usize] = 0;
        (0, ((start % width) as u16, (start / width) as u16, 0))
    }

    fn is_current(&self, (x, y, g): (u16, u16, u32)) -> bool {
        self.least[self.at(x, y) as usize] == g
    }

    fn is_goal(&self, (x, y, _): (u16, u16, u32)) -> bool {
        self.at(x, y) == self.goal
    }

    fn offer_successors(
        &mut self,
        key: usize,
        (x, y, g): (u16, u16, u32),
        open: &mut Buckets<(u16, u16, u32)>,
    ) {
        let (at, stride, width) = (self.at(x, y), self.stride, self.grid.width);
        let (goal_x, goal_y) = (self.grid.goal % width, self.grid.goal / width);
        let mut offer = |to: u32, x: u16, y: u16, action: u8, is_away: bool| {
            let cost = self.cost(to);
            if g + cost < self.least[to as usize] {
                self.least[to as usize] = g + cost;
                self.moves[to as usize] = action;
                let away = usize::from(is_away);
                let rise = if SWAMP { cost as usize - 1 + 2 * away } else { away };
                open.push(key + rise, (x, y, g + cost));
            }
        };
        offer(at - stride, x, y.wrapping_sub(1), 0, u32::from(y) <= goal_y);
        offer(at + stride, x, y + 1, 1, u32::from(y) >= goal_y);
        offer(at - 1, x.wrapping_sub(1), y, 2, u32::from(x) <= goal_x);
        offer(at + 1, x + 1, y, 3, u32::from(x) >= goal_x);
    }

    fn plan_cost(&self, (_, _, g): (u16, u16, u32)) -> u32 {
        let back = [self.stride, self.stride.wrapping_neg(), 1, 1u32.wrapping_neg()];
        let parent = |at: u32| at.wrapping_add(back[self.moves[at as usize] as usize]);
        let start = place(self.grid, self.grid.start);
        let cost = cost_back(start, self.goal, parent, |to| self.cost(to));
        assert_eq!(cost, g);
        cost
    }
}

impl<const SWAMP: bool> Cells<'_, SWAMP> {
    fn cost(&self, to: u32) -> u32 {
        if SWAMP {
            u32::from(self.costs[to as usize])
        } else {
            1
        }
    }

    fn at(&self, x: u16, y: u16) -> u32 {
        (u32::from(y) + 1) * self.stride + u32::from(x) + 1
    }
}

// ---- boards ----

/// A hash table of packed boards with open addressing; no board is 0. A value is g and the move.
struct Table {
    keys: Vec<u64>,
    values: Vec<(u8, u8)>,
    used: usize,
    shift: u32,
}

impl Table {
    fn new(bits: u32) -> Table {
        let size = 1 << bits;
        Table { keys: vec![0; size], values: vec![(0, 0); size], used: 0, shift: 64 - bits }
    }

    fn place(&self, key: u64) -> usize {
        let mut at = (mix(key) >> self.shift) as usize;
        while self.keys[at] != key && self.keys[at] != 0 {
            at = (at + 1) & (self.keys.len() - 1);
        }
        at
    }

    /// Whether the board is new, or had a greater g; then it has this g and move.
    fn improve(&mut self, key: u64, g: u8, action: u8) -> bool {
        let at = self.place(key);
        if self.keys[at] == key {
            let is_less = g < self.values[at].0;
            if is_less {
                self.values[at] = (g, action);
            }
            return is_less;
        }
        self.keys[at] = key;
        self.values[at] = (g, action);
        self.used += 1;
        if self.used * 10 > self.keys.len() * 7 {
            self.grow();
        }
        true
    }

    fn grow(&mut self) {
        let mut larger = Table::new(64 - self.shift + 1);
        for (key, value) in self.keys.iter().zip(&self.values).filter(|(key, _)| **key != 0) {
            let at = larger.place(*key);
            larger.keys[at] = *key;
            larger.values[at] = *value;
        }
        larger.used = self.used;
        *self = larger;
    }
}

const NO_MOVE: u8 = 4;

/// The key is that of maps, times 128, with h added: of one f the least h comes first.
struct Boards<'a> {
    tiles: &'a Tiles,
    table: Table,
}

/// A board, its g, the blank's cell, and the move that led there.
type Board = (u64, u8, u8, u8);

pub fn tight_tiles(tiles: &Tiles) -> Answer {
    search(Boards { tiles, table: Table::new(12) })
}

impl Nodes for Boards<'_> {
    type Node = Board;

    fn first(&mut self) -> (usize, Board) {
        let start = self.tiles.start;
        self.table.improve(start, 0, NO_MOVE);
        (self.tiles.estimate(start) as usize, (start, 0, self.tiles.blank(start), NO_MOVE))
    }

    fn is_current(&self, (state, g, _, _): Board) -> bool {
        self.table.values[self.table.place(state)].0 == g
    }

    fn is_goal(&self, (state, _, _, _): Board) -> bool {
        state == self.tiles.goal
    }

    fn offer_successors(&mut self, key: usize, node: Board, open: &mut Buckets<Board>) {
        let (state, g, blank, came) = node;
        let tiles = self.tiles;
        for (action, other) in tiles.beside[blank as usize].iter().enumerate() {
            // The move back leads to the parent, whose g is less.
            let (Some(other), false) = (*other, action as u8 ^ 1 == came) else {
                continue;
            };
            let next = slid(state, blank, other);
            if self.table.improve(next, g + 1, action as u8) {
                let tile = (state >> (4 * other) & 15) as usize;
                let is_away = tiles.far[tile][blank as usize] > tiles.far[tile][other as usize];
                let key = if is_away { key + 128 + 1 } else { key - 1 };
                open.push(key, (next, g + 1, other, action as u8));
            }
        }
    }

    fn plan_cost(&self, (goal, g, _, _): Board) -> u32 {
        let parent = |state: u64| {
            let action = self.table.values[self.table.place(state)].1;
            let blank = self.tiles.blank(state);
            let beside = self.tiles.beside[blank as usize];
            slid(state, blank, beside[usize::from(action ^ 1)].expect("a cell"))
        };
        let cost = cost_back(self.tiles.start, goal, parent, |_| 1);
        assert_eq!(cost, u32::from(g));
        cost
    }
}
