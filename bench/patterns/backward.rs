// The tables of pattern databases by plain backward searches, as a yardstick for the proved
// program: nothing here is proved. docs/FORMATS.md says what the pattern numbers mean.
//
// Usage: backward tiles BOARD K RUNS, or backward strips DUMP K RUNS, with a dump of tools/ground.
// It prints the microseconds that a table took, the least of so many runs, without the reading of
// the file; how many images have a cost; and the sum of these costs.
use std::cmp::Reverse;
use std::collections::{BinaryHeap, HashMap, VecDeque};
use std::time::Instant;
use std::{env, fs};

const UNKNOWN: u64 = u64::MAX;

// ---- boards

struct Board {
    columns: usize,
    goal: Vec<usize>,
}

fn board_of(text: &str) -> Board {
    let numbers: Vec<usize> =
        text.split_whitespace().filter_map(|word| word.parse().ok()).collect();
    let cells = numbers[0] * numbers[1];
    let goal = if numbers.len() > 2 + cells {
        numbers[2 + cells..].to_vec()
    } else {
        (0..cells).collect()
    };
    Board { columns: numbers[1], goal }
}

// Breadth-first from the goal's placing, as each move can be taken back. The cell of the blank is
// in the bits 0 to 3 of a placing, and that of tile i in the bits 4i to 4i+3.
fn table_of_board(board: &Board, pattern: usize) -> Vec<u64> {
    let cells = board.goal.len();
    let pieces = pattern.min(3).min(cells - 1) + 1;
    let beside: Vec<Vec<usize>> = (0..cells)
        .map(|cell| {
            let column = cell % board.columns;
            let mut found = Vec::new();
            if cell >= board.columns {
                found.push(cell - board.columns);
            }
            if cell + board.columns < cells {
                found.push(cell + board.columns);
            }
            if column > 0 {
                found.push(cell - 1);
            }
            if column + 1 < board.columns {
                found.push(cell + 1);
            }
            found
        })
        .collect();
    let goal = (0..pieces)
        .map(|piece| board.goal.iter().position(|it| *it == piece).unwrap() << (4 * piece))
        .sum::<usize>();
    let mut costs = vec![UNKNOWN; 1 << (4 * pieces)];
    let mut queue = VecDeque::from([goal]);
    costs[goal] = 0;
    while let Some(placing) = queue.pop_front() {
        let blank = placing & 15;
        for to in &beside[blank] {
            let mut other = placing & !15 | to;
            for piece in 1..pieces {
                if placing >> (4 * piece) & 15 == *to {
                    other = other & !(15 << (4 * piece)) | blank << (4 * piece);
                }
            }
            if costs[other] == UNKNOWN {
                costs[other] = costs[placing] + 1;
                queue.push_back(other);
            }
        }
    }
    costs
}

// ---- STRIPS

struct Action {
    sets: [Vec<usize>; 3], // needs, adds, deletes
    cost: u64,
}

struct Task {
    atoms: usize,
    goal: Vec<usize>,
    actions: Vec<Action>,
}

fn task_of(dump: &str) -> Task {
    let mut numbers: HashMap<&str, usize> = HashMap::new();
    let mut task = Task { atoms: 0, goal: Vec::new(), actions: Vec::new() };
    for line in dump.lines() {
        let words: Vec<&str> = line.split('\t').collect();
        let set = |text: &str, numbers: &HashMap<&str, usize>| -> Vec<usize> {
            text.split_inclusive(')')
                .filter_map(|atom| numbers.get(atom.trim()).copied())
                .collect()
        };
        match words[0] {
            "atom" => {
                numbers.insert(words[1], task.atoms);
                task.atoms += 1;
            }
            "goal" => task.goal = set(words[1], &numbers),
            "action" => task.actions.push(Action {
                cost: words[1].parse().unwrap(),
                sets: [3, 4, 5].map(|at| set(words[at], &numbers)),
            }),
            _ => (),
        }
    }
    task.goal.sort();
    task
}

struct Rule {
    needs: usize,
    adds: usize,
    deletes: usize,
    cost: u64,
}

// Actions as the kept atoms see them, equal ones once, by the cheapest.
fn rules_of(task: &Task, place_of: &[Option<usize>]) -> Vec<Rule> {
    let image = |set: &Vec<usize>| -> usize {
        set.iter().filter_map(|atom| place_of[*atom]).map(|place| 1 << place).sum()
    };
    let mut cheapest: HashMap<[usize; 3], u64> = HashMap::new();
    for action in &task.actions {
        let [needs, adds, deletes] = [0, 1, 2].map(|at| image(&action.sets[at]));
        let key = [needs, adds & !needs, deletes & !adds];
        if key[1] | key[2] != 0 {
            let cost = cheapest.entry(key).or_insert(action.cost);
            *cost = action.cost.min(*cost);
        }
    }
    cheapest
        .into_iter()
        .map(|([needs, adds, deletes], cost)| Rule { needs, adds, deletes, cost })
        .collect()
}

// From the goals back, the cheapest images first (Dijkstra 1959).
fn table_of_task(task: &Task, pattern: usize) -> Vec<u64> {
    let others = (0..task.atoms).filter(|atom| !task.goal.contains(atom));
    let kept: Vec<usize> = task.goal.iter().copied().chain(others).take(pattern).collect();
    let mut place_of = vec![None; task.atoms];
    for (place, atom) in kept.iter().enumerate() {
        place_of[*atom] = Some(place);
    }
    let rules = rules_of(task, &place_of);
    let goal: usize =
        task.goal.iter().filter_map(|atom| place_of[*atom]).map(|place| 1 << place).sum();
    let mut costs = vec![UNKNOWN; 1 << kept.len()];
    let mut heap = BinaryHeap::new();
    for image in (0..costs.len()).filter(|image| image & goal == goal) {
        costs[image] = 0;
        heap.push(Reverse((0, image)));
    }
    while let Some(Reverse((cost, image))) = heap.pop() {
        if costs[image] < cost {
            continue;
        }
        for rule in &rules {
            let changed = rule.adds | rule.deletes;
            let base = image & !changed | rule.needs & changed;
            let is_end = image & changed == rule.adds && base & rule.needs == rule.needs;
            if !is_end {
                continue;
            }
            // What held of the changed atoms before, all subsets but for what is needed.
            let free = changed & !rule.needs;
            let mut some = free;
            loop {
                let before = base | some;
                if cost + rule.cost < costs[before] {
                    costs[before] = cost + rule.cost;
                    heap.push(Reverse((cost + rule.cost, before)));
                }
                if some == 0 {
                    break;
                }
                some = (some - 1) & free;
            }
        }
    }
    costs
}

fn main() {
    let words: Vec<String> = env::args().skip(1).collect();
    let text = fs::read_to_string(&words[1]).unwrap();
    let pattern: usize = words[2].parse().unwrap();
    let make: Box<dyn Fn() -> Vec<u64>> = if words[0] == "tiles" {
        let board = board_of(&text);
        Box::new(move || table_of_board(&board, pattern))
    } else {
        let task = task_of(&text);
        Box::new(move || table_of_task(&task, pattern))
    };
    let mut least = u128::MAX;
    let mut costs = Vec::new();
    for _ in 0..words[3].parse::<usize>().unwrap() {
        let began = Instant::now();
        costs = make();
        least = least.min(began.elapsed().as_micros());
    }
    let known: Vec<u64> = costs.into_iter().filter(|cost| *cost != UNKNOWN).collect();
    println!("{} {} {}", least, known.len(), known.iter().sum::<u64>());
}
