//! 01's table of answers, asserted on what a check left without the second program's help: the
//! fields, what is untouched, what is zero, and that the build and the values are in range.

use crate::calls::{CLAUSES, CLAUSE_NUMBERS, FIELDS, STATES, VARIABLES, WORK};
use crate::lending::{Buffer, Lending, Lengths, BUFFERS};

/// One call of `rulebook_check_into`: the buffers before and after it, and the number returned.
pub struct Call<'a> {
    pub before: &'a Lending,
    pub after: &'a Lending,
    pub lengths: &'a Lengths,
    pub budget: u32,
    pub number: u32,
}

/// What 01 requires and the call did not keep.
type Broken = &'static str;

fn require(kept: bool, rule: Broken) -> Result<(), Broken> {
    if kept {
        Ok(())
    } else {
        Err(rule)
    }
}

fn zero<T: Default + PartialEq>(cells: &[T]) -> bool {
    cells.iter().fold(true, |all, cell| all & (*cell == T::default()))
}

impl Call<'_> {
    /// Holds the call to 01.
    pub fn keeps(&self) -> Result<(), Broken> {
        if !self.lengths.meets(Buffer::Answer) {
            require(self.number == 10, "an answer array too short is 10")?;
            return require(self.after == self.before, "10 touches nothing");
        }
        let fields = &self.after.answer[..FIELDS];
        require(fields[0] == self.number, "the number returned is the answer's")?;
        let beyond = self.after.answer[FIELDS..] == self.before.answer[FIELDS..];
        require(beyond, "nothing beyond the fields is touched")?;
        let short = BUFFERS.iter().any(|&buffer| !self.lengths.meets(buffer));
        require(short == (self.number == 10), "10 exactly if a buffer is too short")?;
        require(self.number == 14 || fields[1] == 0, "only 14 has a place")?;
        match self.number {
            1..=3 => self.verdict(),
            10..=14 => {
                require(zero(&fields[2..]), "a refusal has totals and count 0")?;
                self.untouched(true)
            }
            15 => {
                require(zero(&fields[2..]), "a refusal has totals and count 0")?;
                self.untouched(false)?;
                self.cleared(0, 0, 0)?;
                require(zero(&self.after.values[..VARIABLES]), "15 leaves values 0")
            }
            _ => Err("the number is one of the table"),
        }
    }

    /// Nothing changed beyond the sizes, and with `all` not before them either.
    fn untouched(&self, all: bool) -> Result<(), Broken> {
        let from = |size: usize| if all { 0 } else { size };
        let (new, old) = (self.after, self.before);
        let kept = new.states[from(STATES)..] == old.states[from(STATES)..]
            && new.words[from(VARIABLES)..] == old.words[from(VARIABLES)..]
            && new.clauses[from(CLAUSE_NUMBERS)..] == old.clauses[from(CLAUSE_NUMBERS)..]
            && new.values[from(VARIABLES)..] == old.values[from(VARIABLES)..]
            && new.work[from(WORK)..] == old.work[from(WORK)..];
        require(kept, if all { "10 to 14 touch nothing" } else { "nothing beyond is touched" })
    }

    /// Zero from the totals up to the sizes, and the working space all zero.
    fn cleared(&self, states: usize, variables: usize, clauses: usize) -> Result<(), Broken> {
        let new = self.after;
        require(zero(new.states[states..STATES].as_flattened()), "unused records are 0")?;
        require(zero(&new.words[variables..VARIABLES]), "unused words are 0")?;
        require(zero(&new.clauses[3 * clauses..CLAUSE_NUMBERS]), "unused clause numbers are 0")?;
        require(zero(&new.work[..WORK]), "working space is zero afterwards")
    }

    /// 1, 2 and 3.
    fn verdict(&self) -> Result<(), Broken> {
        let fields = &self.after.answer;
        let [states, variables, clauses] = [2, 3, 4].map(|at| fields[at] as usize);
        require((1..=STATES).contains(&states), "states from 1 to 512")?;
        require((1..=VARIABLES).contains(&variables), "variables from 1 to 4,095")?;
        require((1..=CLAUSES).contains(&clauses), "clauses from 1 to 5,000")?;
        match self.number {
            3 => require(fields[5] == self.budget, "stopped counts the budget")?,
            _ => require((1..=self.budget).contains(&fields[5]), "C is within the budget")?,
        }
        self.untouched(false)?;
        self.cleared(states, variables, clauses)?;
        self.ranges(states, variables, clauses)?;
        let values = &self.after.values[..VARIABLES];
        if self.number != 1 {
            return require(zero(values), "no and stopped leave values 0");
        }
        require(values.iter().all(|value| *value <= 1), "values are 0 or 1")?;
        require(zero(&values[variables..]), "unused values are 0")?;
        let met = self.after.clauses[..3 * clauses].chunks(3).all(|clause| {
            clause.iter().any(|&literal| {
                literal != 0
                    && (values[usize::from(literal.unsigned_abs()) - 1] == 1) == (literal > 0)
            })
        });
        require(met, "yes meets every clause")
    }

    /// Records, words and literals name states and variables that are there.
    fn ranges(&self, states: usize, variables: usize, clauses: usize) -> Result<(), Broken> {
        let records = &self.after.states[..states];
        require(records[0] == [0; 3], "state 1's record is all zero")?;
        let made = records.iter().enumerate().skip(1).all(|(at, &[parent, relation, maker])| {
            (1..=at).contains(&usize::from(parent))
                && relation < 16
                && (1..=variables).contains(&usize::from(maker))
        });
        require(made, "a state is made by a variable of a state before it")?;
        let words = self.after.words[..variables].iter().all(|word| {
            (1..=states).contains(&((word / 2048) as usize)) && word % 2048 < 1024 + 256
        });
        require(words, "a word is a state and a key")?;
        let literals = self.after.clauses[..3 * clauses].chunks(3).all(|clause| {
            let known = |literal: &i16| usize::from(literal.unsigned_abs()) <= variables;
            let unused_last = clause[0] != 0 && (clause[1] != 0 || clause[2] == 0);
            clause.iter().all(known) && unused_last
        });
        require(literals, "literals are variables, and unused places are last")
    }
}
