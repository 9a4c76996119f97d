//! What the check prints (01, "Books to try"), read back line by line.

use crate::fault::Fault;
use crate::words::Words;

/// A living state as it is printed.
#[derive(Clone, Debug, PartialEq, Eq)]
pub struct State {
    /// The state's number.
    pub number: u16,
    /// Its parent; 0 for state 1.
    pub parent: u16,
    /// The relation by which the parent reaches it.
    pub relation: u16,
    /// Its true atoms, ascending.
    pub atoms: Vec<u16>,
}

/// An answer.
#[derive(Clone, Debug, PartialEq, Eq)]
pub enum Answer {
    /// Satisfied by this structure; state 1 comes first.
    Yes(Vec<State>),
    /// Not satisfied, found after so many search nodes.
    No(u32),
    /// Not decided within so many search nodes.
    Stopped(u32),
    /// Refused by this number, at this place.
    Refused(u32, u32),
}

/// Reads an answer.
///
/// # Errors
/// If a line is not as the check prints it.
pub fn read(text: &str) -> Result<Answer, Fault> {
    let mut lines = (1..).zip(text.lines()).map(|(line, text)| Words::of_line(line, text));
    let mut first = lines.next().ok_or_else(|| Fault::new(1, "there is no answer"))?;
    let word = first.word("`size` or `refused`")?;
    let answer = match word.text {
        "refused" => {
            let answer = Answer::Refused(first.number()?, first.number()?);
            first.end()?;
            answer
        }
        "size" => {
            let states = sizes(&mut first)?;
            first.end()?;
            let second = lines.next().ok_or_else(|| Fault::new(2, "the verdict is missing"))?;
            verdict(second, states, &mut lines)?
        }
        text => return Err(word.fault(format!("`{text}` starts no answer"))),
    };
    match lines.next() {
        Some(more) => Err(Fault::new(more.line, "the answer has ended before this line")),
        None => Ok(answer),
    }
}

/// Reads the three sizes and gives the first, the number of states.
fn sizes(words: &mut Words<'_>) -> Result<u16, Fault> {
    let states = words.number()?;
    let _variables: u16 = words.number()?;
    let _clauses: u16 = words.number()?;
    Ok(states)
}

fn verdict<'a>(
    mut words: Words<'a>,
    most: u16,
    lines: &mut impl Iterator<Item = Words<'a>>,
) -> Result<Answer, Fault> {
    let word = words.word("`yes`, `no` or `stopped`")?;
    let count = words.number()?;
    words.end()?;
    match word.text {
        "yes" => states(most, lines).map(Answer::Yes),
        "no" => Ok(Answer::No(count)),
        "stopped" => Ok(Answer::Stopped(count)),
        text => Err(word.fault(format!("`{text}` stands where `yes`, `no` or `stopped` should"))),
    }
}

/// Reads states up to the end.
fn states<'a>(most: u16, lines: &mut impl Iterator<Item = Words<'a>>) -> Result<Vec<State>, Fault> {
    let mut states = Vec::new();
    for mut words in lines {
        let state = state(&mut words)?;
        if let Some(what) = misplaced(&state, &states, most) {
            return Err(Fault::new(words.line, what));
        }
        states.push(state);
    }
    if states.is_empty() {
        return Err(Fault::new(3, "the states are missing"));
    }
    Ok(states)
}

fn state(words: &mut Words<'_>) -> Result<State, Fault> {
    words.expect("state")?;
    let [number, parent, relation] = [words.number()?, words.number()?, words.number()?];
    let atoms = words.map(|word| word.number()).collect::<Result<_, _>>()?;
    Ok(State { number, parent, relation, atoms })
}

/// What is wrong with a state after those before it.
fn misplaced(state: &State, before: &[State], most: u16) -> Option<&'static str> {
    let ascends = before.last().is_none_or(|last| last.number < state.number);
    let first = (state.number, state.parent, state.relation) == (1, 0, 0);
    if before.is_empty() && !first {
        Some("the first state is not `state 1 0 0`")
    } else if !ascends {
        Some("the states do not ascend")
    } else if state.number > most {
        Some("the state is above the size")
    } else if !before.is_empty() && !before.iter().any(|known| known.number == state.parent) {
        Some("the parent is not a state above")
    } else if !state.atoms.is_sorted_by(|one, next| one < next) {
        Some("the atoms do not ascend")
    } else {
        None
    }
}

#[cfg(test)]
mod tests {
    use super::*;

    #[test]
    fn the_paper_s_example() {
        let text = "size 3 5 5\nyes 1\nstate 1 0 0\nstate 2 1 0 0\nstate 3 1 0\n";
        let state = |number, parent, atoms: &[u16]| State {
            number,
            parent,
            relation: 0,
            atoms: atoms.to_vec(),
        };
        let states = vec![state(1, 0, &[]), state(2, 1, &[0]), state(3, 1, &[])];
        assert_eq!(read(text), Ok(Answer::Yes(states)));
    }

    #[test]
    fn other_answers() {
        assert_eq!(read("size 2 4 5\nno 1\n"), Ok(Answer::No(1)));
        assert_eq!(read("size 1 3 2\nstopped 1000000\n"), Ok(Answer::Stopped(1_000_000)));
        assert_eq!(read("refused 14 3\n"), Ok(Answer::Refused(14, 3)));
    }

    #[test]
    fn faults() {
        let wrong = [
            ("", "line 1: there is no answer"),
            ("\n", "line 1: `size` or `refused` is missing at the end"),
            ("yes 1", "line 1: `yes` starts no answer"),
            ("refused 14", "line 1: a number is missing at the end"),
            ("refused 11 0\nrefused 11 0", "line 2: the answer has ended before this line"),
            ("size 1 1 1 1\nno", "line 1: `1` is one word too many"),
            ("size 1 1 1", "line 2: the verdict is missing"),
            ("size 1 1 1\nmaybe 1", "line 2: `maybe` stands where `yes`, `no` or `stopped` should"),
            ("size 1 1 1\nno 1\nstate 1 0 0", "line 3: the answer has ended before this line"),
            ("size 1 1 1\nyes 1", "line 3: the states are missing"),
            ("size 1 1 1\nyes 1\nstate 1 0 1", "line 3: the first state is not `state 1 0 0`"),
            ("size 1 1 1\nyes 1\nstate 1 0", "line 3: a number is missing at the end"),
            ("size 1 1 1\nyes 1\nstate 1 0 0 p", "line 3: `p` is not a number"),
            ("size 1 1 1\nyes 1\nstate 1 0 0 2 1", "line 3: the atoms do not ascend"),
        ];
        for (text, fault) in wrong {
            assert_eq!(read(text).unwrap_err().to_string(), fault);
        }
    }

    #[test]
    fn misplaced_states() {
        let wrong = [
            ("state 1 0 0", "the states do not ascend"),
            ("state 4 1 0", "the state is above the size"),
            ("state 2 0 0", "the parent is not a state above"),
            ("state 2 2 0", "the parent is not a state above"),
            ("", "`state` is missing at the end"),
        ];
        for (line, fault) in wrong {
            let text = format!("size 3 5 5\nyes 1\nstate 1 0 0\n{line}\n");
            assert_eq!(read(&text).unwrap_err().to_string(), format!("line 4: {fault}"));
        }
    }
}
