//! Runs a case in both programs and keeps count.

use std::collections::BTreeMap;
use std::fmt::Debug;

use reference::shared::{Answer, Answers, Law};

/// All inputs of one call: sides, parameters and lent buffers.
pub trait Case: Clone + PartialEq + Debug {
    fn reference(&mut self) -> Answer;
    fn library(&mut self) -> Answer;
}

/// A case as the library left it, and what both programs answered.
pub struct Asked<C> {
    pub case: C,
    pub answers: Answers,
}

impl<C> Asked<C> {
    /// By the reference.
    pub fn accepted(&self) -> bool {
        self.answers.expected.number == 0
    }
}

const SHOWN: usize = 5;

pub struct Tally {
    pub cases: u64,
    pub differences: u64,
    /// How often the reference gave each number, 0 being an accepted call.
    pub numbers: BTreeMap<u64, u64>,
    /// How often each kind of case was met.
    pub kinds: BTreeMap<String, u64>,
    pub shown: Vec<String>,
}

impl Tally {
    pub fn new() -> Self {
        Tally {
            cases: 0,
            differences: 0,
            numbers: BTreeMap::new(),
            kinds: BTreeMap::new(),
            shown: vec![],
        }
    }

    /// Compares the whole answer and every cell of every buffer.
    pub fn ask<C: Case>(&mut self, case: C) -> Asked<C> {
        let (mut expected, mut found) = (case.clone(), case.clone());
        let answers = Answers {
            expected: expected.reference(),
            found: found.library(),
        };
        self.cases += 1;
        *self.numbers.entry(answers.expected.number).or_insert(0) += 1;
        if answers.expected != answers.found || expected != found {
            self.differ(|| shown(&case, &answers) + &first_difference(&expected, &found));
        }
        Asked {
            case: found,
            answers,
        }
    }

    /// As `ask`; gives the case alone.
    pub fn run<C: Case>(&mut self, case: C) -> C {
        self.ask(case).case
    }

    /// Counts a case of this kind.
    pub fn meet(&mut self, kind: &str) {
        *self.kinds.entry(kind.to_string()).or_insert(0) += 1;
    }

    /// Counts a case of this kind; a law that its answer breaks is a difference.
    pub fn demand<C: Case>(&mut self, kind: &str, law: Law, one: &Asked<C>) {
        self.meet(kind);
        if let Err(broken) = law {
            let one = shown(&one.case, &one.answers);
            self.differ(|| format!("  {kind}: {broken}\n{one}"));
        }
    }

    /// Counts two cases that stand in a relation; a law that their answers break is a difference.
    pub fn compare<C: Case, D: Case>(
        &mut self,
        relation: &str,
        law: Law,
        one: &Asked<C>,
        other: &Asked<D>,
    ) {
        self.meet(relation);
        if let Err(broken) = law {
            let one = shown(&one.case, &one.answers);
            let other = shown(&other.case, &other.answers);
            self.differ(|| format!("  {relation}: {broken}\n{one}\n{other}"));
        }
    }

    fn differ(&mut self, difference: impl FnOnce() -> String) {
        self.differences += 1;
        if self.shown.len() < SHOWN {
            self.shown.push(difference());
        }
    }
}

fn shown<C: Case>(case: &C, answers: &Answers) -> String {
    let Answers { expected, found } = answers;
    format!("  case     {case:?}\n  expected {expected:?}\n  found    {found:?}")
}

fn first_difference<C: Case>(expected: &C, found: &C) -> String {
    let (expected, found) = (format!("{expected:#?}"), format!("{found:#?}"));
    match expected
        .lines()
        .zip(found.lines())
        .find(|(ours, theirs)| ours != theirs)
    {
        None => String::new(),
        Some((ours, theirs)) => {
            format!(
                "\n  expected {} after the call\n  found    {} after the call",
                ours.trim(),
                theirs.trim()
            )
        }
    }
}
