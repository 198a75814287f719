//! What is reported where the two are not the same.

use std::fmt;

use jirvaldo::inspect::State;

use crate::compare::Part;
use crate::pair::{Call, Proved, Reference};

/// One difference.
#[derive(Clone, Debug)]
pub struct Difference {
    /// In what the two differ.
    pub part: Part,
    /// What each gave, or the input.
    detail: String,
    /// Their states, where there are jobs.
    proved: String,
    reference: String,
}

impl Difference {
    /// A difference, with the states of the jobs that there are.
    pub fn new(
        part: Part,
        detail: String,
        proved: Option<&Proved>,
        reference: Option<&Reference>,
    ) -> Difference {
        Difference {
            part,
            detail,
            proved: format!("{:?}", proved.map(State::of)),
            reference: format!("{reference:?}"),
        }
    }

    /// The same, with the call after which it was found.
    pub fn after(self, call: &Call) -> Difference {
        let detail = match self.detail.as_str() {
            "" => format!("after {call:?}"),
            detail => format!("after {call:?}: {detail}"),
        };
        Difference { detail, ..self }
    }
}

impl fmt::Display for Difference {
    fn fmt(&self, out: &mut fmt::Formatter<'_>) -> fmt::Result {
        writeln!(out, "{}\n{}", self.part, self.detail)?;
        writeln!(out, "proved: {}", self.proved)?;
        write!(out, "reference: {}", self.reference)
    }
}

/// A difference, and where it was found.
#[derive(Clone, Debug)]
pub struct Found {
    /// The case, from 0.
    pub case: u64,
    /// How many calls of the case were made.
    pub call: u64,
    /// What differs.
    pub difference: Difference,
}

impl fmt::Display for Found {
    fn fmt(&self, out: &mut fmt::Formatter<'_>) -> fmt::Result {
        let Found {
            case,
            call,
            difference,
        } = self;
        write!(
            out,
            "DIFFERENT in case {case} after call {call}: {difference}"
        )
    }
}
