//! The three sides, behind one trait. Every call of a side is a real call.

use crate::proved;
use bench::twin;
use reference::{counters_line, run_log, wording, Job as ReferenceJob, Refusal};

/// A job of one side. Answers are document 01's numbers, 0 for none.
pub trait Side: Clone {
    const NAME: &'static str;
    fn blank() -> Self;
    fn accept(&mut self, plan: &[u8]) -> u8;
    fn grant(&mut self, workers: u64) -> u8;
    fn offer(&mut self, workers: u64) -> u8;
    fn open(&mut self, workers: u64) -> u8;
    fn withdraw(&mut self) -> u8;
    fn tick(&mut self, choices: &[u8]) -> u8;
    fn tick_seeded(&mut self, seed: &mut u32) -> u8;
    fn run_log(&mut self, log: &[u8], refusals: &mut u64) -> u8;
    fn status(&self) -> u8;
    fn wording(&self, sheet: &[u8], start: &mut usize, size: &mut usize) -> u8;
    fn line(&self, refusals: u64, buffer: &mut [u8], size: &mut usize) -> u8;
}

macro_rules! forward {
    ($job:ty, $name:expr) => {
        impl Side for $job {
            const NAME: &'static str = $name;
            fn blank() -> Self {
                <$job>::blank()
            }
            fn accept(&mut self, plan: &[u8]) -> u8 {
                self.accept(plan)
            }
            fn grant(&mut self, workers: u64) -> u8 {
                self.grant(workers)
            }
            fn offer(&mut self, workers: u64) -> u8 {
                self.offer(workers)
            }
            fn open(&mut self, workers: u64) -> u8 {
                self.open(workers)
            }
            fn withdraw(&mut self) -> u8 {
                self.withdraw()
            }
            fn tick(&mut self, choices: &[u8]) -> u8 {
                self.tick(choices)
            }
            fn tick_seeded(&mut self, seed: &mut u32) -> u8 {
                self.tick_seeded(seed)
            }
            fn run_log(&mut self, log: &[u8], refusals: &mut u64) -> u8 {
                self.run_log(log, refusals)
            }
            fn status(&self) -> u8 {
                self.status()
            }
            fn wording(&self, sheet: &[u8], start: &mut usize, size: &mut usize) -> u8 {
                self.wording(sheet, start, size)
            }
            fn line(&self, refusals: u64, buffer: &mut [u8], size: &mut usize) -> u8 {
                self.line(refusals, buffer, size)
            }
        }
    };
}

forward!(proved::Job, "proved");
forward!(twin::Job, "twin");
forward!(Second, "reference");

/// A job of the second implementation; none before a plan is accepted.
#[derive(Clone)]
pub struct Second {
    job: Option<ReferenceJob>,
}

fn number<T>(answer: Result<T, Refusal>) -> u8 {
    answer.err().map_or(0, Refusal::number)
}

impl Second {
    fn job(&self) -> &ReferenceJob {
        self.job.as_ref().expect("a plan was accepted")
    }

    fn job_mut(&mut self) -> &mut ReferenceJob {
        self.job.as_mut().expect("a plan was accepted")
    }

    fn blank() -> Second {
        Second { job: None }
    }

    #[inline(never)]
    fn accept(&mut self, plan: &[u8]) -> u8 {
        match ReferenceJob::accept(plan) {
            Ok(job) => {
                self.job = Some(job);
                0
            }
            Err(refusal) => refusal.number(),
        }
    }

    #[inline(never)]
    fn grant(&mut self, workers: u64) -> u8 {
        number(self.job_mut().grant(workers as usize))
    }

    #[inline(never)]
    fn offer(&mut self, workers: u64) -> u8 {
        number(self.job_mut().offer(workers as usize))
    }

    #[inline(never)]
    fn open(&mut self, workers: u64) -> u8 {
        number(self.job_mut().open(workers as usize))
    }

    #[inline(never)]
    fn withdraw(&mut self) -> u8 {
        number(self.job_mut().withdraw())
    }

    #[inline(never)]
    fn tick(&mut self, choices: &[u8]) -> u8 {
        number(self.job_mut().tick(choices))
    }

    #[inline(never)]
    fn tick_seeded(&mut self, seed: &mut u32) -> u8 {
        number(self.job_mut().tick_seeded(seed))
    }

    #[inline(never)]
    fn run_log(&mut self, log: &[u8], refusals: &mut u64) -> u8 {
        let outcome = run_log(self.job_mut(), log);
        *refusals = outcome.refused;
        outcome.broken.map_or(0, Refusal::number)
    }

    #[inline(never)]
    fn status(&self) -> u8 {
        self.job().status().number()
    }

    #[inline(never)]
    fn wording(&self, sheet: &[u8], start: &mut usize, size: &mut usize) -> u8 {
        let part = wording(sheet, self.job().status());
        *start = part.map_or(0, |part| part.as_ptr() as usize - sheet.as_ptr() as usize);
        *size = part.map_or(0, |part| part.len());
        number(part)
    }

    #[inline(never)]
    fn line(&self, refusals: u64, buffer: &mut [u8], size: &mut usize) -> u8 {
        let line = counters_line(self.job(), refusals, buffer);
        *size = line.unwrap_or(0);
        number(line)
    }
}
