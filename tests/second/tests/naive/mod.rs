//! Slow readings of 01 by the letter, to hold the fast ones against.

use second::book::{Book, Node};

/// A node and a sign, true for plus.
type Signed = (u16, bool);

/// The build with lists that grow as they like.
#[derive(Default)]
pub struct Build {
    pub states: Vec<[u16; 3]>,
    pub words: Vec<u32>,
    pub clauses: Vec<[i16; 3]>,
}

fn strip(nodes: &[Node], (node, plus): Signed) -> Signed {
    match nodes[usize::from(node)] {
        Node::Not(child) => strip(nodes, (child, !plus)),
        _ => (node, plus),
    }
}

impl Build {
    fn ask(&mut self, nodes: &[Node], state: usize, asked: Signed) -> i16 {
        let (node, plus) = strip(nodes, asked);
        let (key, negative) = match nodes[usize::from(node)] {
            Node::Atom(atom) => (1024 + u32::from(atom), !plus),
            _ => (2 * u32::from(node) + u32::from(!plus), false),
        };
        let word = 2048 * state as u32 + key;
        let at = self.words.iter().position(|stored| *stored == word).unwrap_or_else(|| {
            self.words.push(word);
            self.words.len() - 1
        });
        let variable = at as i16 + 1;
        if negative {
            -variable
        } else {
            variable
        }
    }

    /// Whether the build is over a limit by now.
    pub fn over(&self) -> bool {
        self.states.len() > 512 || self.words.len() > 4095 || self.clauses.len() > 5000
    }

    /// The node and sign that a word of the state stands for; nothing for an atom.
    fn formula(&self, nodes: &[Node], state: usize, at: usize) -> Option<(Node, bool)> {
        let (of, key) = (self.words[at] / 2048, self.words[at] % 2048);
        let here = of == state as u32 && key < 1024;
        here.then(|| (nodes[key as usize / 2], key % 2 == 0))
    }

    /// Step 1. A row of the table: both parts or either, each with its sign.
    fn first(&mut self, nodes: &[Node], state: usize) {
        let mut at = 0;
        while at < self.words.len() {
            let row = match self.formula(nodes, state, at) {
                Some((Node::And(a, b), true)) => Some((true, (a, true), (b, true))),
                Some((Node::Or(a, b), false)) => Some((true, (a, false), (b, false))),
                Some((Node::Implies(a, b), false)) => Some((true, (a, true), (b, false))),
                Some((Node::Or(a, b), true)) => Some((false, (a, true), (b, true))),
                Some((Node::And(a, b), false)) => Some((false, (a, false), (b, false))),
                Some((Node::Implies(a, b), true)) => Some((false, (a, false), (b, true))),
                _ => None,
            };
            if let Some((both, first, second)) = row {
                let own = -(at as i16 + 1);
                let first = self.ask(nodes, state, first);
                let second = self.ask(nodes, state, second);
                match both {
                    true => self.clauses.extend([[own, first, 0], [own, second, 0]]),
                    false => self.clauses.push([own, first, second]),
                }
            }
            at += 1;
        }
    }

    /// Step 2.
    fn second(&mut self, nodes: &[Node], state: usize) {
        for at in 0..self.words.len() {
            if let Some(
                (Node::Diamond { child, relation }, plus @ true)
                | (Node::Box { child, relation }, plus @ false),
            ) = self.formula(nodes, state, at)
            {
                self.states.push([state as u16, relation, at as u16 + 1]);
                let literal = self.ask(nodes, self.states.len(), (child, plus));
                self.clauses.push([-(at as i16 + 1), literal, 0]);
            }
        }
    }

    /// Step 3.
    fn third(&mut self, nodes: &[Node], state: usize) {
        for at in 0..self.words.len() {
            if let Some(
                (Node::Box { child, relation }, plus @ true)
                | (Node::Diamond { child, relation }, plus @ false),
            ) = self.formula(nodes, state, at)
            {
                for successor in 2..=self.states.len() {
                    let [parent, through, maker] = self.states[successor - 1];
                    if usize::from(parent) == state && through == relation {
                        let literal = self.ask(nodes, successor, (child, plus));
                        self.clauses.push([-(at as i16 + 1), -(maker as i16), literal]);
                    }
                }
            }
        }
    }
}

/// The build of a book; it ends after the first state that leaves it over a limit.
pub fn build(book: &Book) -> Build {
    let nodes = book.nodes();
    let mut build = Build { states: vec![[0; 3]], ..Build::default() };
    let literal = build.ask(nodes, 1, (book.root(), true));
    build.clauses.push([literal, 0, 0]);
    let mut state = 1;
    while state <= build.states.len() && !build.over() {
        build.first(nodes, state);
        build.second(nodes, state);
        build.third(nodes, state);
        state += 1;
    }
    build
}

/// The search by recursion.
pub struct Search<'a> {
    pub clauses: &'a [[i16; 3]],
    pub variables: usize,
    pub budget: u64,
    pub count: u64,
    pub values: Vec<u8>,
}

impl Search<'_> {
    /// Enters a node with what is assigned so far, place 0 unused: whether it ends in yes, or
    /// nothing once the nodes pass the budget.
    pub fn node(&mut self, mut assigned: Vec<Option<bool>>) -> Option<bool> {
        self.count += 1;
        if self.count > self.budget {
            return None;
        }
        while let Some(forced) = self.first_forcing(&assigned) {
            match forced {
                0 => return Some(false),
                literal => assigned[usize::from(literal.unsigned_abs())] = Some(literal > 0),
            }
        }
        let met = |clause: &[i16; 3]| clause.iter().any(|&l| holds(&assigned, l) == Some(true));
        if self.clauses.iter().all(met) {
            self.values =
                assigned[1..].iter().map(|value| u8::from(*value == Some(true))).collect();
            return Some(true);
        }
        let lowest = (1..=self.variables).find(|&variable| assigned[variable].is_none());
        let lowest = lowest.expect("an open clause has an unassigned variable");
        for value in [true, false] {
            let mut branch = assigned.clone();
            branch[lowest] = Some(value);
            if self.node(branch)? {
                return Some(true);
            }
        }
        Some(false)
    }

    /// The literal that the first failing or forcing clause forces, 0 if it fails.
    fn first_forcing(&self, assigned: &[Option<bool>]) -> Option<i16> {
        self.clauses.iter().find_map(|clause| {
            let used = clause.iter().copied().filter(|literal| *literal != 0);
            if used.clone().any(|literal| holds(assigned, literal) == Some(true)) {
                return None;
            }
            let mut open: Vec<i16> = used.filter(|&l| holds(assigned, l).is_none()).collect();
            open.dedup();
            match open[..] {
                [] => Some(0),
                [literal] => Some(literal),
                _ => None,
            }
        })
    }
}

fn holds(assigned: &[Option<bool>], literal: i16) -> Option<bool> {
    match literal {
        0 => Some(false),
        _ => assigned[usize::from(literal.unsigned_abs())].map(|value| value == (literal > 0)),
    }
}
