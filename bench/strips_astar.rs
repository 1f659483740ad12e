// A plain A* over STRIPS tasks with hmax by counters, over std's heap and map, as a yardstick for
// the proved program: nothing here is proved. It reads the part of PDDL that the tasks of
// bench/strips and bench/wide are written in. Usage: strips_astar DOMAIN PROBLEM [THREADS]. It
// prints the cost of a cheapest plan or `none`, how many states it expanded, and how many atoms and
// ground actions there are. Of atoms it counts those alone that an action, the start or the goal
// names; at most 1,024 may be. A state has 4 words if they suffice, and else 16. With a number of
// threads the search is a hash-distributed A* (strips_owners.rs).
mod letters;
mod pddl;
mod strips_owners;

use std::cmp::Reverse;
use std::collections::{BinaryHeap, HashMap, HashSet};
use std::{env, fs};

use pddl::{begins_with, literals, schema_of, trees_of, typed, Schema, Tree};

// ---- grounding

const MOST_ATOMS: usize = 1024;

// Ground atoms by their numbers, each once.
type Atoms = Vec<u16>;

type Set<const W: usize> = [u64; W];

fn set_of<const W: usize>(atoms: &Atoms) -> Set<W> {
    let mut set = [0; W];
    for atom in atoms {
        set[*atom as usize / 64] |= 1 << (atom % 64);
    }
    set
}

fn has<const W: usize>(set: &Set<W>, atom: usize) -> bool {
    set[atom / 64] >> (atom % 64) & 1 == 1
}

struct Action {
    needs: Atoms,
    adds: Atoms,
    deletes: Atoms,
    cost: u32,
}

struct Task {
    atoms: usize,
    actions: Vec<Action>,
    start: Atoms,
    goal: Atoms,
}

struct Grounder<'a> {
    objects: &'a [(String, String)],
    parents: &'a HashMap<String, String>,
    fixed: &'a HashSet<String>,
    facts: &'a HashSet<Vec<String>>,
    numbers: HashMap<Vec<String>, usize>,
    actions: Vec<Action>,
}

impl Grounder<'_> {
    fn is_a(&self, kind: &str, wanted: &str) -> bool {
        let mut at = kind;
        while at != wanted {
            match self.parents.get(at) {
                Some(parent) if at != "object" => at = parent,
                _ => return wanted == "object",
            }
        }
        true
    }

    fn atoms(&mut self, atoms: &[Vec<String>]) -> Atoms {
        let mut found = Vec::new();
        for atom in atoms {
            let next = self.numbers.len();
            let number = *self.numbers.entry(atom.clone()).or_insert(next);
            assert!(number < MOST_ATOMS, "at most {MOST_ATOMS} atoms");
            found.push(number as u16);
        }
        found.sort();
        found.dedup();
        found
    }

    // Binds the parameters from this one on. An instance is given up once an atom that never
    // changes doesn't hold.
    fn bind(&mut self, schema: &Schema, bound: &mut Vec<String>) {
        let value = |word: &String, bound: &[String]| match schema
            .parameters
            .iter()
            .position(|parameter| parameter.0 == *word)
        {
            Some(at) => bound.get(at).cloned(),
            None => Some(word.clone()),
        };
        for need in schema.needs.iter().filter(|need| self.fixed.contains(&need[0])) {
            let words: Option<Vec<String>> = need.iter().map(|word| value(word, bound)).collect();
            if words.is_some_and(|words| !self.facts.contains(&words)) {
                return;
            }
        }
        if bound.len() == schema.parameters.len() {
            let ground = |words: &Vec<String>| -> Vec<String> {
                words.iter().map(|word| value(word, bound).unwrap()).collect()
            };
            let needs: Vec<_> = schema
                .needs
                .iter()
                .filter(|need| !self.fixed.contains(&need[0]))
                .map(ground)
                .collect();
            let adds: Vec<_> = schema
                .effects
                .iter()
                .filter(|effect| effect.0)
                .map(|effect| ground(&effect.1))
                .collect();
            let deletes: Vec<_> = schema
                .effects
                .iter()
                .filter(|effect| !effect.0)
                .map(|effect| ground(&effect.1))
                .collect();
            let action = Action {
                needs: self.atoms(&needs),
                adds: self.atoms(&adds),
                deletes: self.atoms(&deletes),
                cost: schema.cost,
            };
            self.actions.push(action);
            return;
        }
        for at in 0..self.objects.len() {
            if self.is_a(&self.objects[at].1, &schema.parameters[bound.len()].1) {
                bound.push(self.objects[at].0.clone());
                self.bind(schema, bound);
                bound.pop();
            }
        }
    }
}

fn task_of(domain: &str, problem: &str) -> Task {
    let (domain, problem) = (trees_of(domain), trees_of(problem));
    let section = |trees: &'_ [Tree], name: &str| -> Option<usize> {
        trees[0].list().iter().position(|tree| begins_with(tree, name))
    };
    let parents: HashMap<String, String> = section(&domain, ":types")
        .map_or(HashMap::new(), |at| {
            typed(&domain[0].list()[at].list()[1..]).into_iter().collect()
        });
    let is_action = |tree: &&Tree| begins_with(tree, ":action");
    let has_metric = section(&problem, ":metric").is_some();
    let schemas: Vec<Schema> = domain[0]
        .list()
        .iter()
        .filter(is_action)
        .map(|tree| schema_of(tree.list(), has_metric))
        .collect();
    let objects = section(&problem, ":objects")
        .map_or(Vec::new(), |at| typed(&problem[0].list()[at].list()[1..]));
    let init = &problem[0].list()[section(&problem, ":init").expect("an :init")].list()[1..];
    let facts: HashSet<Vec<String>> =
        init.iter().flat_map(literals).map(|literal| literal.1).collect();
    let goal = literals(&problem[0].list()[section(&problem, ":goal").expect("a :goal")].list()[1]);
    let changed: HashSet<&String> = schemas
        .iter()
        .flat_map(|schema| schema.effects.iter().map(|effect| &effect.1[0]))
        .collect();
    let fixed: HashSet<String> = schemas
        .iter()
        .flat_map(|schema| schema.needs.iter().map(|need| &need[0]))
        .filter(|name| !changed.contains(name))
        .cloned()
        .collect();
    let mut grounder = Grounder {
        objects: &objects,
        parents: &parents,
        fixed: &fixed,
        facts: &facts,
        numbers: HashMap::new(),
        actions: Vec::new(),
    };
    let mut held: Vec<Vec<String>> =
        facts.iter().filter(|fact| changed.contains(&fact[0])).cloned().collect();
    held.sort();
    let start = grounder.atoms(&held);
    let wanted: Vec<Vec<String>> = goal.into_iter().map(|literal| literal.1).collect();
    let goal = grounder.atoms(&wanted);
    for schema in &schemas {
        grounder.bind(schema, &mut Vec::new());
    }
    Task { atoms: grounder.numbers.len(), actions: grounder.actions, start, goal }
}

// ---- the estimate

// Atoms by their costs: lists if each action costs 1, else a heap.
enum Queue {
    Lists { lists: Vec<Vec<u16>>, cost: usize, next: usize },
    Heap(BinaryHeap<Reverse<(u32, u16)>>),
}

impl Queue {
    fn of(task: &Task) -> Queue {
        if task.actions.iter().all(|action| action.cost == 1) {
            Queue::Lists { lists: vec![Vec::new(); task.atoms + 2], cost: 0, next: 0 }
        } else {
            Queue::Heap(BinaryHeap::new())
        }
    }

    fn clear(&mut self) {
        match self {
            Queue::Lists { lists, cost, next } => {
                lists.iter_mut().for_each(Vec::clear);
                (*cost, *next) = (0, 0);
            }
            Queue::Heap(heap) => heap.clear(),
        }
    }

    fn push(&mut self, at: u32, atom: u16) {
        match self {
            Queue::Lists { lists, .. } => lists[at as usize].push(atom),
            Queue::Heap(heap) => heap.push(Reverse((at, atom))),
        }
    }

    fn pop(&mut self) -> Option<(u32, u16)> {
        match self {
            Queue::Lists { lists, cost, next } => {
                while *cost < lists.len() && *next == lists[*cost].len() {
                    (*cost, *next) = (*cost + 1, 0);
                }
                let atom = *lists.get(*cost)?.get(*next)?;
                *next += 1;
                Some((*cost as u32, atom))
            }
            Queue::Heap(heap) => heap.pop().map(|Reverse(first)| first),
        }
    }
}

struct Hmax {
    needs: Vec<u16>,
    prices: Vec<u32>,
    adds: Vec<u16>,
    adds_from: Vec<u32>,
    users: Vec<u32>,
    users_from: Vec<u32>,
    free: Vec<u32>,
    is_goal: Vec<bool>,
    wanted: u32,
    left: Vec<u16>,
    costs: Vec<u32>,
    queue: Queue,
}

impl Hmax {
    fn of(task: &Task) -> Hmax {
        let mut adds = Vec::new();
        let mut adds_from = vec![0];
        let mut lists = vec![Vec::new(); task.atoms];
        let mut needs = Vec::new();
        let mut free = Vec::new();
        for (number, action) in task.actions.iter().enumerate() {
            adds.extend(action.adds.iter().filter(|atom| !action.needs.contains(atom)));
            adds_from.push(adds.len() as u32);
            for atom in &action.needs {
                lists[*atom as usize].push(number as u32);
            }
            needs.push(action.needs.len() as u16);
            if needs[number] == 0 {
                free.push(number as u32);
            }
        }
        let mut users_from = vec![0];
        for list in &lists {
            users_from.push(users_from.last().unwrap() + list.len() as u32);
        }
        Hmax {
            left: needs.clone(),
            needs,
            adds,
            adds_from,
            users: lists.concat(),
            users_from,
            free,
            is_goal: (0..task.atoms).map(|atom| task.goal.contains(&(atom as u16))).collect(),
            wanted: task.goal.len() as u32,
            costs: vec![u32::MAX; task.atoms],
            prices: task.actions.iter().map(|action| action.cost).collect(),
            queue: Queue::of(task),
        }
    }

    // The action's needs are reached at this cost.
    fn reach(&mut self, action: usize, cost: u32) {
        let cost = cost + self.prices[action];
        for at in self.adds_from[action]..self.adds_from[action + 1] {
            let atom = self.adds[at as usize];
            if cost < self.costs[atom as usize] {
                self.costs[atom as usize] = cost;
                self.queue.push(cost, atom);
            }
        }
    }

    // None where the goal is reached at no cost.
    fn estimate<const W: usize>(&mut self, state: &Set<W>) -> Option<u32> {
        let mut wanted = self.wanted;
        if wanted == 0 {
            return Some(0);
        }
        self.costs.fill(u32::MAX);
        self.left.copy_from_slice(&self.needs);
        self.queue.clear();
        for atom in (0..self.costs.len()).filter(|atom| has(state, *atom)) {
            self.costs[atom] = 0;
            self.queue.push(0, atom as u16);
        }
        for at in 0..self.free.len() {
            self.reach(self.free[at] as usize, 0);
        }
        while let Some((cost, atom)) = self.queue.pop() {
            let atom = atom as usize;
            if self.costs[atom] != cost {
                continue;
            }
            if self.is_goal[atom] {
                wanted -= 1;
                if wanted == 0 {
                    return Some(cost);
                }
            }
            for at in self.users_from[atom]..self.users_from[atom + 1] {
                let user = self.users[at as usize] as usize;
                self.left[user] -= 1;
                if self.left[user] == 0 {
                    self.reach(user, cost);
                }
            }
        }
        None
    }
}

// ---- the search

struct Row<const W: usize> {
    state: Set<W>,
    g: u32,
    h: u32,
    parent: u32,
    price: u32,
    closed: bool,
}

// An action's sets in so many words.
struct Step<const W: usize> {
    needs: Set<W>,
    adds: Set<W>,
    deletes: Set<W>,
    cost: u32,
}

fn step_of<const W: usize>(action: &Action) -> Step<W> {
    Step {
        needs: set_of(&action.needs),
        adds: set_of(&action.adds),
        deletes: set_of(&action.deletes),
        cost: action.cost,
    }
}

fn search<const W: usize>(task: &Task) -> (Option<u32>, u64) {
    let mut hmax = Hmax::of(task);
    let steps: Vec<Step<W>> = task.actions.iter().map(step_of).collect();
    let (start, goal): (Set<W>, Set<W>) = (set_of(&task.start), set_of(&task.goal));
    let Some(first) = hmax.estimate(&start) else { return (None, 0) };
    let mut rows = vec![Row { state: start, g: 0, h: first, parent: 0, price: 0, closed: false }];
    let mut known = HashMap::from([(start, 0u32)]);
    let mut open = BinaryHeap::from([Reverse((first, first, 0u32))]);
    let mut expanded = 0;
    while let Some(Reverse((sum, h, number))) = open.pop() {
        let row = &mut rows[number as usize];
        if row.closed || sum != row.g + h {
            continue;
        }
        let (state, g) = (row.state, row.g);
        if (0..W).all(|i| state[i] & goal[i] == goal[i]) {
            let (mut at, mut sum) = (number, 0);
            while at != 0 {
                sum += rows[at as usize].price;
                at = rows[at as usize].parent;
            }
            assert_eq!(sum, g);
            return (Some(sum), expanded);
        }
        row.closed = true;
        expanded += 1;
        for step in &steps {
            if (0..W).any(|i| state[i] & step.needs[i] != step.needs[i]) {
                continue;
            }
            let next: Set<W> = std::array::from_fn(|i| state[i] & !step.deletes[i] | step.adds[i]);
            let (fresh, cost, price) = (rows.len() as u32, g + step.cost, step.cost);
            let at = *known.entry(next).or_insert(fresh);
            if at == fresh {
                let h = hmax.estimate(&next).unwrap_or(u32::MAX);
                rows.push(Row { state: next, g: cost, h, parent: number, price, closed: false });
            } else if cost < rows[at as usize].g {
                let row = &mut rows[at as usize];
                (row.g, row.parent, row.price, row.closed) = (cost, number, price, false);
            } else {
                continue;
            }
            let h = rows[at as usize].h;
            if h != u32::MAX {
                open.push(Reverse((cost + h, h, at)));
            }
        }
    }
    (None, expanded)
}

fn main() {
    let args: Vec<String> = env::args().collect();
    let task = task_of(
        &fs::read_to_string(&args[1]).expect("a domain"),
        &fs::read_to_string(&args[2]).expect("a problem"),
    );
    let is_narrow = task.atoms <= 256;
    let (cost, expanded) = match args.get(3).map(|word| word.parse().expect("a number")) {
        None if is_narrow => search::<4>(&task),
        None => search::<16>(&task),
        Some(threads) if is_narrow => strips_owners::search::<4>(&task, threads),
        Some(threads) => strips_owners::search::<16>(&task, threads),
    };
    let cost = cost.map_or("none".to_string(), |cost| cost.to_string());
    println!("{cost} {expanded} {} {}", task.atoms, task.actions.len());
}
