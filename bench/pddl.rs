// The part of PDDL that the tasks of bench/ are written in, read for plain programs in ordinary
// Rust: trees of words, typed lists, literals and schemas. Nothing here is proved.

pub enum Tree {
    Word(String),
    List(Vec<Tree>),
}

impl Tree {
    pub fn list(&self) -> &[Tree] {
        match self {
            Tree::List(items) => items,
            Tree::Word(word) => panic!("a list, and not {word}"),
        }
    }

    pub fn word(&self) -> &str {
        match self {
            Tree::Word(word) => word,
            Tree::List(_) => panic!("a word, and not a list"),
        }
    }
}

pub fn trees_of(text: &str) -> Vec<Tree> {
    let spaced: String =
        text.lines().map(|line| line.split(';').next().unwrap().to_lowercase() + "\n").collect();
    let mut open: Vec<Vec<Tree>> = vec![Vec::new()];
    for token in spaced.replace('(', " ( ").replace(')', " ) ").split_whitespace() {
        match token {
            "(" => open.push(Vec::new()),
            ")" => {
                let done = open.pop().unwrap();
                open.last_mut().expect("an open list").push(Tree::List(done));
            }
            word => open.last_mut().unwrap().push(Tree::Word(word.to_string())),
        }
    }
    open.pop().unwrap()
}

// Names with their types, as in `a b - block c`.
pub fn typed(trees: &[Tree]) -> Vec<(String, String)> {
    let mut names: Vec<(String, String)> = Vec::new();
    let mut first = 0;
    let mut at = 0;
    while at < trees.len() {
        if trees[at].word() == "-" {
            for name in &mut names[first..] {
                name.1 = trees[at + 1].word().to_string();
            }
            first = names.len();
            at += 2;
        } else {
            names.push((trees[at].word().to_string(), "object".to_string()));
            at += 1;
        }
    }
    names
}

// The literals of a conjunction without its costs: whether each is positive, with its words.
pub fn literals(tree: &Tree) -> Vec<(bool, Vec<String>)> {
    let items = tree.list();
    let words = |items: &[Tree]| items.iter().map(|item| item.word().to_string()).collect();
    match items.first().map(Tree::word) {
        None => Vec::new(),
        Some("and") => items[1..].iter().flat_map(literals).collect(),
        Some("not") => vec![(false, words(items[1].list()))],
        Some("increase" | "=") => Vec::new(),
        Some(_) => vec![(true, words(items))],
    }
}

// The costs in an effect, as in `(increase (total-cost) 3)`.
fn costs(tree: &Tree) -> Vec<u32> {
    let items = tree.list();
    match items.first().map(Tree::word) {
        Some("and") => items[1..].iter().flat_map(costs).collect(),
        Some("increase") => vec![items[2].word().parse().expect("a cost")],
        _ => Vec::new(),
    }
}

pub struct Schema {
    pub parameters: Vec<(String, String)>,
    pub needs: Vec<Vec<String>>,
    pub effects: Vec<(bool, Vec<String>)>,
    pub cost: u32,
}

// An action costs its increase if there is a metric, else 1.
pub fn schema_of(items: &[Tree], has_metric: bool) -> Schema {
    let part = |name: &str| {
        items
            .iter()
            .position(|item| matches!(item, Tree::Word(word) if word == name))
            .map(|at| &items[at + 1])
    };
    Schema {
        parameters: part(":parameters").map_or(Vec::new(), |tree| typed(tree.list())),
        needs: part(":precondition").map_or(Vec::new(), |tree| {
            literals(tree).into_iter().map(|literal| literal.1).collect()
        }),
        effects: part(":effect").map_or(Vec::new(), literals),
        cost: match part(":effect").map_or(Vec::new(), costs)[..] {
            _ if !has_metric => 1,
            [cost] if cost >= 1 => cost,
            _ => panic!("one cost of at least 1"),
        },
    }
}

// Whether the tree is a list that begins with this word.
pub fn begins_with(tree: &Tree, name: &str) -> bool {
    match tree {
        Tree::List(items) => matches!(items.first(), Some(Tree::Word(word)) if word == name),
        Tree::Word(_) => false,
    }
}
