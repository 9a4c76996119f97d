//! Satisfiability in K(m) by a tableau on signed formulas (000, the table and the truth definition
//! of section 2). It knows nothing of the build: no variables, no clauses, its own classes.

use crate::book::{Book, Node};
use std::collections::HashMap;

/// What the tableau finds within its steps.
#[derive(Clone, Copy, Debug, PartialEq, Eq)]
pub enum Verdict {
    Satisfiable,
    Unsatisfiable,
    Unknown,
}

/// A signed formula as a number: 2 × node, or 1,024 + 2 × atom for an atom, +1 if it is denied.
/// Its complement is the number with the last bit flipped.
type Formula = u16;

const ATOMS_FROM: u16 = 1024;
const SET_WORDS: usize = 24;

/// How a formula is worked off.
#[derive(Clone, Copy)]
enum Form {
    Literal,
    Both(Formula, Formula),
    Either(Formula, Formula),
    Some(u16, Formula),
    All(u16, Formula),
}

/// The formulas asserted at one state, and what is still to do with them.
#[derive(Clone, Default)]
struct Leaf {
    set: [u64; SET_WORDS],
    agenda: Vec<Formula>,
    choices: Vec<(Formula, Formula)>,
    modal: Vec<Formula>,
}

impl Leaf {
    fn has(&self, formula: Formula) -> bool {
        self.set[usize::from(formula / 64)] >> (formula % 64) & 1 == 1
    }

    fn insert(&mut self, formula: Formula) {
        self.set[usize::from(formula / 64)] |= 1 << (formula % 64);
    }

    /// Drops the choices that are met and puts the ones with a denied side on the agenda. False
    /// if both sides of one are denied.
    fn settle(&mut self) -> bool {
        let mut choices = std::mem::take(&mut self.choices);
        let mut open = true;
        choices.retain(|&(first, second)| {
            if self.has(first) || self.has(second) {
                return false;
            }
            match (self.has(first ^ 1), self.has(second ^ 1)) {
                (false, false) => return true,
                (true, false) => self.agenda.push(second),
                (false, true) => self.agenda.push(first),
                (true, true) => open = false,
            }
            false
        });
        self.choices = choices;
        open
    }
}

struct Tableau<'a> {
    nodes: &'a [Node],
    steps: u64,
    known: HashMap<Vec<Formula>, bool>,
}

impl Tableau<'_> {
    /// The formula of a node under a sign, every outer "not" taken away.
    fn formula(&self, mut node: u16, mut denied: bool) -> Formula {
        loop {
            match self.nodes[usize::from(node)] {
                Node::Not(child) => (node, denied) = (child, !denied),
                Node::Atom(atom) => return ATOMS_FROM + 2 * atom + u16::from(denied),
                _ => return 2 * node + u16::from(denied),
            }
        }
    }

    fn form(&self, formula: Formula) -> Form {
        if formula >= ATOMS_FROM {
            return Form::Literal;
        }
        let denied = formula % 2 == 1;
        let pair = |a, deny_a, b, deny_b| (self.formula(a, deny_a), self.formula(b, deny_b));
        let ((first, second), both) = match self.nodes[usize::from(formula / 2)] {
            Node::Atom(_) | Node::Not(_) => return Form::Literal,
            Node::And(a, b) => (pair(a, denied, b, denied), !denied),
            Node::Or(a, b) => (pair(a, denied, b, denied), denied),
            Node::Implies(a, b) => (pair(a, !denied, b, denied), denied),
            Node::Box { child, relation } if denied => {
                return Form::Some(relation, self.formula(child, true));
            }
            Node::Box { child, relation } => {
                return Form::All(relation, self.formula(child, false));
            }
            Node::Diamond { child, relation } if denied => {
                return Form::All(relation, self.formula(child, true));
            }
            Node::Diamond { child, relation } => {
                return Form::Some(relation, self.formula(child, false));
            }
        };
        if both {
            Form::Both(first, second)
        } else {
            Form::Either(first, second)
        }
    }

    fn step(&mut self) -> Option<()> {
        self.steps = self.steps.checked_sub(1)?;
        Some(())
    }

    /// Works off the agenda. False if the leaf closes; `None` if the steps run out.
    fn saturate(&mut self, leaf: &mut Leaf) -> Option<bool> {
        loop {
            while let Some(formula) = leaf.agenda.pop() {
                self.step()?;
                if leaf.has(formula ^ 1) {
                    return Some(false);
                }
                if leaf.has(formula) {
                    continue;
                }
                leaf.insert(formula);
                match self.form(formula) {
                    Form::Literal => {}
                    Form::Both(first, second) => leaf.agenda.extend([second, first]),
                    Form::Either(first, second) => leaf.choices.push((first, second)),
                    Form::Some(..) | Form::All(..) => leaf.modal.push(formula),
                }
            }
            if !leaf.settle() {
                return Some(false);
            }
            if leaf.agenda.is_empty() {
                return Some(true);
            }
        }
    }

    /// Whether each existential of a saturated leaf has its successor.
    fn successors(&mut self, leaf: &Leaf) -> Option<bool> {
        let forms: Vec<Form> = leaf.modal.iter().map(|&formula| self.form(formula)).collect();
        for form in &forms {
            let &Form::Some(relation, part) = form else {
                continue;
            };
            let start = forms.iter().filter_map(|other| match *other {
                Form::All(through, part) if through == relation => Some(part),
                _ => None,
            });
            if !self.state(start.chain([part]).collect())? {
                return Some(false);
            }
        }
        Some(true)
    }

    /// Whether some state satisfies all of `start`. Recursion goes down the modal depth only.
    fn state(&mut self, mut start: Vec<Formula>) -> Option<bool> {
        start.sort_unstable();
        start.dedup();
        if let Some(&known) = self.known.get(&start) {
            return Some(known);
        }
        let mut leaves = vec![Leaf { agenda: start.clone(), ..Leaf::default() }];
        let mut satisfied = false;
        while let Some(mut leaf) = leaves.pop() {
            self.step()?;
            if !self.saturate(&mut leaf)? {
                continue;
            }
            if let Some((first, second)) = leaf.choices.pop() {
                let mut other = leaf.clone();
                other.agenda.extend([second, first ^ 1]);
                leaf.agenda.push(first);
                leaves.extend([other, leaf]);
            } else if self.successors(&leaf)? {
                satisfied = true;
                break;
            }
        }
        self.known.insert(start, satisfied);
        Some(satisfied)
    }
}

/// Decides whether the book's root is satisfiable, giving up after `steps`.
pub fn decide(book: &Book, steps: u64) -> Verdict {
    let mut tableau = Tableau { nodes: book.nodes(), steps, known: HashMap::new() };
    let root = tableau.formula(book.root(), false);
    match tableau.state(vec![root]) {
        Some(true) => Verdict::Satisfiable,
        Some(false) => Verdict::Unsatisfiable,
        None => Verdict::Unknown,
    }
}
