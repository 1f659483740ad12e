//! Maps and boards as state spaces.
use std::fs;
use std::hash::Hash;

/// A state space.
pub trait Space: Sync {
    type State: Copy + Eq + Hash + Ord + Send + Sync;
    fn start(&self) -> Self::State;
    fn goal(&self) -> Self::State;
    fn estimate(&self, state: Self::State) -> u32;
    fn successors(&self, state: Self::State, out: &mut Vec<Self::State>);
    /// What a step to a state costs.
    fn cost(&self, _to: Self::State) -> u32 {
        1
    }
    /// A number by whose upper bits states are spread over threads.
    fn mixed(&self, state: Self::State) -> u64;
}

pub struct Grid {
    pub width: u32,
    pub height: u32,
    pub cells: Vec<u8>,
    /// For each cell what a step into it costs.
    pub costs: Vec<u8>,
    pub start: u32,
    pub goal: u32,
}

impl Grid {
    pub fn read(map: &str, scenario: &str, swamp: bool) -> Grid {
        let text = fs::read(map).expect("a map");
        let lines: Vec<&[u8]> = text.split(|&byte| byte == b'\n').collect();
        let number = |line: &[u8]| -> u32 {
            let text = std::str::from_utf8(line).expect("a header");
            text.split_whitespace().nth(1).expect("a size").parse().expect("a size")
        };
        let (height, width) = (number(lines[1]), number(lines[2]));
        let class = |byte: &u8| match byte {
            b'.' | b'G' | b'S' => b'.',
            b'W' => b'W',
            _ => b'@',
        };
        let rows = lines[4..4 + height as usize].iter();
        let bytes: Vec<u8> = rows.flat_map(|row| row[..width as usize].iter().copied()).collect();
        let cells = bytes.iter().map(class).collect();
        let costs = bytes.iter().map(|byte| if swamp && *byte == b'S' { 2 } else { 1 }).collect();
        let text = fs::read_to_string(scenario).expect("a scenario");
        let row = text.lines().skip(1).find(|line| !line.trim().is_empty()).expect("a row");
        let words: Vec<&str> = row.split_whitespace().collect();
        let at = |from_right: usize| -> u32 {
            words[words.len() - from_right].parse().expect("a coordinate")
        };
        let (start, goal) = (at(4) * width + at(5), at(2) * width + at(3));
        Grid { width, height, cells, costs, start, goal }
    }
}

impl Space for Grid {
    type State = u32;
    fn start(&self) -> u32 {
        self.start
    }
    fn goal(&self) -> u32 {
        self.goal
    }
    fn estimate(&self, cell: u32) -> u32 {
        let (x, y) = (cell % self.width, cell / self.width);
        x.abs_diff(self.goal % self.width) + y.abs_diff(self.goal / self.width)
    }
    fn successors(&self, cell: u32, out: &mut Vec<u32>) {
        out.clear();
        let (x, y) = (cell % self.width, cell / self.width);
        let mut offer = |next: u32| {
            if self.cells[next as usize] == self.cells[cell as usize] {
                out.push(next);
            }
        };
        if y > 0 {
            offer(cell - self.width);
        }
        if y + 1 < self.height {
            offer(cell + self.width);
        }
        if x > 0 {
            offer(cell - 1);
        }
        if x + 1 < self.width {
            offer(cell + 1);
        }
    }
    fn cost(&self, to: u32) -> u32 {
        u32::from(self.costs[to as usize])
    }
    fn mixed(&self, cell: u32) -> u64 {
        mix(u64::from(cell))
    }
}

/// A board: the number in cell i is in the bits 4i to 4i+3.
pub struct Tiles {
    pub rows: u32,
    pub columns: u32,
    pub start: u64,
    pub goal: u64,
    /// For each tile and cell how far the cell is from the tile's cell on the goal board.
    pub far: [[u8; 16]; 16],
    /// For each cell those beside it, by move: up, down, left, right.
    pub beside: [[Option<u8>; 4]; 16],
}

impl Tiles {
    pub fn read(board: &str) -> Tiles {
        let text = fs::read_to_string(board).expect("a board");
        let words = text.split_whitespace().filter(|word| *word != "goal");
        let numbers: Vec<u32> = words.map(|word| word.parse().expect("a number")).collect();
        let (rows, columns) = (numbers[0], numbers[1]);
        let cells = (rows * columns) as usize;
        let usual: Vec<u32> = (0..cells as u32).collect();
        let start = &numbers[2..2 + cells];
        let goal = if numbers.len() > 2 + cells { &numbers[2 + cells..] } else { &usual };
        let (mut far, mut beside) = ([[0; 16]; 16], [[None; 4]; 16]);
        for cell in 0..cells as u32 {
            let (x, y) = (cell % columns, cell / columns);
            for (home, tile) in goal.iter().enumerate().filter(|(_, tile)| **tile != 0) {
                let (home_x, home_y) = (home as u32 % columns, home as u32 / columns);
                let distance = x.abs_diff(home_x) + y.abs_diff(home_y);
                far[*tile as usize][cell as usize] = distance as u8;
            }
            beside[cell as usize] = [
                (y > 0).then(|| (cell - columns) as u8),
                (y + 1 < rows).then(|| (cell + columns) as u8),
                (x > 0).then(|| (cell - 1) as u8),
                (x + 1 < columns).then(|| (cell + 1) as u8),
            ];
        }
        let packed = |board: &[u32]| -> u64 {
            let bits = board.iter().enumerate();
            bits.fold(0, |state, (cell, tile)| state | u64::from(*tile) << (4 * cell))
        };
        Tiles { rows, columns, start: packed(start), goal: packed(goal), far, beside }
    }

    pub fn blank(&self, state: u64) -> u8 {
        let cells = (self.rows * self.columns) as u8;
        (0..cells).find(|cell| state >> (4 * cell) & 15 == 0).expect("a blank")
    }
}

pub fn slid(state: u64, blank: u8, other: u8) -> u64 {
    let tile = state >> (4 * other) & 15;
    state ^ tile << (4 * other) ^ tile << (4 * blank)
}

impl Space for Tiles {
    type State = u64;
    fn start(&self) -> u64 {
        self.start
    }
    fn goal(&self) -> u64 {
        self.goal
    }
    fn estimate(&self, state: u64) -> u32 {
        let cells = self.rows * self.columns;
        let far = |cell: u32| self.far[(state >> (4 * cell) & 15) as usize][cell as usize];
        (0..cells).map(|cell| u32::from(far(cell))).sum()
    }
    fn successors(&self, state: u64, out: &mut Vec<u64>) {
        out.clear();
        let blank = self.blank(state);
        let beside = self.beside[blank as usize];
        out.extend(beside.iter().flatten().map(|other| slid(state, blank, *other)));
    }
    fn mixed(&self, state: u64) -> u64 {
        mix(state)
    }
}

pub fn mix(state: u64) -> u64 {
    state.wrapping_mul(0x9e37_79b9_7f4a_7c15)
}
