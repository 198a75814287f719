//! A second implementation of document 01's scheduler (A-Steal over a task
//! graph), written from that document and the requests of document 02 alone.
//! It shares no code with the proved implementation and is there to be
//! compared with it.
//!
//! Reading order, which is document 01's: [`plan`], [`form`] (the forms of
//! plans), [`job`] (grant and tick), [`offer`] (the note of an offer),
//! [`lasting`] (how long a piece stays), [`withdrawal`] (which orphan is taken
//! first), [`theft`] (what a steal takes), [`rest`] (what the workers after the
//! finisher count), [`lines`] (how many deques are in use), [`quantum`] (round's
//! end), [`growth`] (how it moves the desire), [`call`] (the calls as one kind),
//! [`log`], [`seed`] (choices from a seed), [`label`], [`counters`], [`program`].
//! [`generator`] makes random plans and logs from a seed and [`coverage`]
//! counts what they reach. [`stored`] chooses a set of cases to be kept.
//!
//! Names are the field's terms; each definition says document 01's own word.

#![forbid(unsafe_code)]

pub mod call;
pub mod counters;
pub mod coverage;
pub mod form;
pub mod generator;
pub mod growth;
pub mod job;
pub mod label;
pub mod lasting;
pub mod lines;
pub mod log;
pub mod offer;
pub mod plan;
pub mod program;
pub mod quantum;
pub mod refusal;
pub mod rest;
pub mod seed;
pub mod stored;
pub mod theft;
pub mod withdrawal;

pub use call::{Answer, Call};
pub use counters::{counters_line, counters_text, line_size, ten_numbers, DigitCount};
pub use form::{Asked, Reading, Ticks};
pub use growth::{Growth, Level, Pace};
pub use job::{Cycle, GrantReport, Job, OpenQuantum, Rules, Status, TickReport, MOST_QUANTA};
pub use label::wording;
pub use lasting::{Lasting, Tick};
pub use lines::{Excess, Largest, Source};
pub use log::{run_log, run_log_with, Entries, Entry, LogOutcome, Report};
pub use offer::Noting;
pub use plan::{read_plan, read_plan_with, Plan, Task};
pub use program::{program_output, program_output_with, split_input};
pub use quantum::{is_efficient, QuantumEnd};
pub use refusal::Refusal;
pub use rest::{Charge, Rest};
pub use seed::{run_day, Drawing, Drawn, Step};
pub use theft::{Share, Theft};
pub use withdrawal::{Turn, Withdrawn};
