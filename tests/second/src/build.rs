//! 01, "Signed formulas and four classes" and "The build" (000, the table of section 2 and rules
//! (1) to (7) of section 3.1), over lent buffers. A plain scan answers each asking, and it looks
//! only where the asked state's words can stand.

use crate::book::{Book, Node, ATOMS, NODES};
use std::ops::RangeInclusive;

/// Most states of a build.
pub const STATES: usize = 512;
/// Most variables of a build.
pub const VARIABLES: usize = 4095;
/// Most clauses of a build.
pub const CLAUSES: usize = 5000;

/// A word is state × 2,048 + key.
pub const WORD_STATE: u32 = 2048;
/// Keys from here on are atoms.
pub const ATOM_KEY: u16 = 1024;
/// Keys a state can have at most.
const KEYS: usize = (ATOM_KEY + ATOMS) as usize;

/// A node and a sign.
#[derive(Clone, Copy, Debug, PartialEq, Eq)]
pub struct Signed {
    pub node: u16,
    pub minus: bool,
}

impl Signed {
    pub fn plus(node: u16) -> Signed {
        Signed { node, minus: false }
    }

    fn under(node: u16, minus: bool) -> Signed {
        Signed { node, minus }
    }
}

/// The four classes with their parts (and relation); atoms and "not" have none.
#[derive(Clone, Copy, Debug, PartialEq, Eq)]
pub enum Class {
    Conjunctive(Signed, Signed),
    Disjunctive(Signed, Signed),
    Existential(u16, Signed),
    Universal(u16, Signed),
    None,
}

/// The class of a node under a sign.
pub fn class(node: Node, minus: bool) -> Class {
    let part = |child, minus| Signed::under(child, minus);
    match (node, minus) {
        (Node::And(a, b), false) => Class::Conjunctive(part(a, false), part(b, false)),
        (Node::Or(a, b), true) => Class::Conjunctive(part(a, true), part(b, true)),
        (Node::Implies(a, b), true) => Class::Conjunctive(part(a, false), part(b, true)),
        (Node::Or(a, b), false) => Class::Disjunctive(part(a, false), part(b, false)),
        (Node::And(a, b), true) => Class::Disjunctive(part(a, true), part(b, true)),
        (Node::Implies(a, b), false) => Class::Disjunctive(part(a, true), part(b, false)),
        (Node::Diamond { child, relation }, false) | (Node::Box { child, relation }, true) => {
            Class::Existential(relation, part(child, minus))
        }
        (Node::Box { child, relation }, false) | (Node::Diamond { child, relation }, true) => {
            Class::Universal(relation, part(child, minus))
        }
        (Node::Atom(_) | Node::Not(_), _) => Class::None,
    }
}

/// The totals of a build.
#[derive(Clone, Copy, Debug, Default, PartialEq, Eq)]
pub struct Totals {
    pub states: usize,
    pub variables: usize,
    pub clauses: usize,
}

/// What an asking looks for: the stripped formula's key, and whether its literal is negative.
#[derive(Clone, Copy)]
struct Wanted {
    key: u16,
    negative: bool,
}

impl Wanted {
    fn literal(self, variable: i16) -> i16 {
        if self.negative {
            -variable
        } else {
            variable
        }
    }
}

/// The keys of the state at hand with their variables, in number order.
struct Own {
    count: usize,
    keys: [u16; KEYS],
    variables: [i16; KEYS],
}

impl Own {
    fn add(&mut self, key: u16, variable: i16) -> Option<()> {
        *self.keys.get_mut(self.count)? = key;
        *self.variables.get_mut(self.count)? = variable;
        self.count += 1;
        Some(())
    }

    fn variable(&self, key: u16) -> Option<i16> {
        find(&self.keys[..self.count], key).map(|at| self.variables[at])
    }
}

/// Where `wanted` stands. Sixteen places are compared at a time.
fn find<T: Copy + PartialEq>(all: &[T], wanted: T) -> Option<usize> {
    let (blocks, rest) = all.as_chunks::<16>();
    let is_wanted = |one: &T| *one == wanted;
    for (at, block) in blocks.iter().enumerate() {
        if block.iter().fold(false, |hit, one| hit | is_wanted(one)) {
            return block.iter().position(is_wanted).map(|within| 16 * at + within);
        }
    }
    rest.iter().position(is_wanted).map(|within| 16 * blocks.len() + within)
}

/// The build under way. Going over a limit is `None` and ends it.
struct Build<'a> {
    nodes: &'a [Node],
    /// Each node under plus with every outer "not" stripped.
    bare: [Signed; NODES as usize],
    states: &'a mut [[u16; 3]],
    words: &'a mut [u32],
    clauses: &'a mut [[i16; 3]],
    totals: Totals,
    own: Own,
    /// By state number: where its first word stands.
    first: [u16; STATES + 1],
    /// By state number: where the words that it asked of its successors end. Place 0 stands for
    /// the start, which asks state 1.
    end: [u16; STATES + 1],
}

impl Build<'_> {
    fn wanted(&self, asked: Signed) -> Wanted {
        let bare = self.bare[usize::from(asked.node)];
        let minus = bare.minus != asked.minus;
        match self.nodes[usize::from(bare.node)] {
            Node::Atom(atom) => Wanted { key: ATOM_KEY + atom, negative: minus },
            _ => Wanted { key: 2 * bare.node + u16::from(minus), negative: false },
        }
    }

    fn class_of(&self, key: u16) -> Class {
        match self.nodes.get(usize::from(key / 2)) {
            Some(&node) if key < ATOM_KEY => class(node, key % 2 == 1),
            _ => Class::None,
        }
    }

    fn make_state(&mut self, record: [u16; 3]) -> Option<usize> {
        *self.states.get_mut(self.totals.states)? = record;
        self.totals.states += 1;
        self.first[self.totals.states] = self.totals.variables as u16;
        Some(self.totals.states)
    }

    fn make_variable(&mut self, word: u32) -> Option<i16> {
        *self.words.get_mut(self.totals.variables)? = word;
        self.totals.variables += 1;
        Some(self.totals.variables as i16)
    }

    fn write(&mut self, clause: [i16; 3]) -> Option<()> {
        *self.clauses.get_mut(self.totals.clauses)? = clause;
        self.totals.clauses += 1;
        Some(())
    }

    /// Asks the state at hand.
    fn ask_here(&mut self, state: usize, asked: Signed) -> Option<i16> {
        let wanted = self.wanted(asked);
        if let Some(variable) = self.own.variable(wanted.key) {
            return Some(wanted.literal(variable));
        }
        let variable = self.make_variable(word(state, wanted.key))?;
        self.own.add(wanted.key, variable)?;
        Some(wanted.literal(variable))
    }

    /// Asks a state whose own turn has not come: its words stand from its first one on.
    fn ask_ahead(&mut self, state: usize, wanted: Wanted) -> Option<i16> {
        let word = word(state, wanted.key);
        let first = usize::from(self.first[state]);
        let variable = match find(&self.words[first..self.totals.variables], word) {
            Some(at) => (first + at + 1) as i16,
            None => self.make_variable(word)?,
        };
        Some(wanted.literal(variable))
    }

    fn run(&mut self, root: u16) -> Option<()> {
        let first = self.make_state([0, 0, 0])?;
        let literal = self.ask_ahead(first, self.wanted(Signed::plus(root)))?;
        self.write([literal, 0, 0])?;
        self.end[0] = self.totals.variables as u16;
        let mut state = first;
        while state <= self.totals.states {
            self.gather(state)?;
            self.step_one(state)?;
            let before = self.totals.states;
            self.step_two(state)?;
            self.step_three(before + 1..=self.totals.states)?;
            self.end[state] = self.totals.variables as u16;
            state += 1;
        }
        Some(())
    }

    /// Collects what the state has been asked for so far, all of it by its parent.
    fn gather(&mut self, state: usize) -> Option<()> {
        let parent = usize::from(self.states[state - 1][0]);
        let (first, end) = (usize::from(self.first[state]), usize::from(self.end[parent]));
        self.own.count = 0;
        for (at, &stored) in self.words[first..end].iter().enumerate() {
            if stored / WORD_STATE == state as u32 {
                self.own.add((stored % WORD_STATE) as u16, (first + at + 1) as i16)?;
            }
        }
        Some(())
    }

    /// Step 1: conjunctive and disjunctive keys by variable number, newly added ones too.
    fn step_one(&mut self, state: usize) -> Option<()> {
        let mut at = 0;
        while at < self.own.count {
            let own = self.own.variables[at];
            match self.class_of(self.own.keys[at]) {
                Class::Conjunctive(first, second) => {
                    let first = self.ask_here(state, first)?;
                    let second = self.ask_here(state, second)?;
                    self.write([-own, first, 0])?;
                    self.write([-own, second, 0])?;
                }
                Class::Disjunctive(first, second) => {
                    let first = self.ask_here(state, first)?;
                    let second = self.ask_here(state, second)?;
                    self.write([-own, first, second])?;
                }
                _ => {}
            }
            at += 1;
        }
        Some(())
    }

    /// Step 2: a new state for each existential variable.
    fn step_two(&mut self, state: usize) -> Option<()> {
        for at in 0..self.own.count {
            if let Class::Existential(relation, part) = self.class_of(self.own.keys[at]) {
                let maker = self.own.variables[at];
                let made = self.make_state([state as u16, relation, maker as u16])?;
                let literal = self.ask_ahead(made, self.wanted(part))?;
                self.write([-maker, literal, 0])?;
            }
        }
        Some(())
    }

    /// Step 3: each universal variable over the successors of its relation.
    fn step_three(&mut self, successors: RangeInclusive<usize>) -> Option<()> {
        if successors.is_empty() {
            return Some(());
        }
        for at in 0..self.own.count {
            if let Class::Universal(relation, part) = self.class_of(self.own.keys[at]) {
                let wanted = self.wanted(part);
                for successor in successors.clone() {
                    let [_, made_by, maker] = self.states[successor - 1];
                    if made_by == relation {
                        let literal = self.ask_ahead(successor, wanted)?;
                        self.write([-self.own.variables[at], -(maker as i16), literal])?;
                    }
                }
            }
        }
        Some(())
    }
}

fn word(state: usize, key: u16) -> u32 {
    state as u32 * WORD_STATE + u32::from(key)
}

/// Each node under plus with every outer "not" stripped.
fn strip(nodes: &[Node]) -> [Signed; NODES as usize] {
    let mut bare = [Signed::plus(0); NODES as usize];
    for (own, &node) in nodes.iter().enumerate() {
        bare[own] = match node {
            Node::Not(child) => {
                let below = bare[usize::from(child)];
                Signed::under(below.node, !below.minus)
            }
            _ => Signed::plus(own as u16),
        };
    }
    bare
}

/// Builds the clauses of a book: three numbers a state (parent, relation, maker), a word a
/// variable, three literals a clause. Used places are written, no others. `None` stands for the
/// refusal 15 (or for a buffer that is too short and runs full); then the contents are open.
pub fn build(
    book: &Book,
    states: &mut [u16],
    words: &mut [u32],
    clauses: &mut [i16],
) -> Option<Totals> {
    let states = states.as_chunks_mut().0;
    let clauses = clauses.as_chunks_mut().0;
    let (states_size, words_size) = (states.len().min(STATES), words.len().min(VARIABLES));
    let clauses_size = clauses.len().min(CLAUSES);
    let mut build = Build {
        nodes: book.nodes(),
        bare: strip(book.nodes()),
        states: &mut states[..states_size],
        words: &mut words[..words_size],
        clauses: &mut clauses[..clauses_size],
        totals: Totals::default(),
        own: Own { count: 0, keys: [0; KEYS], variables: [0; KEYS] },
        first: [0; STATES + 1],
        end: [0; STATES + 1],
    };
    build.run(book.root())?;
    Some(build.totals)
}
