//! The proved static library, called as C calls it.

/// A job as the library takes it: its memory and its words.
#[derive(Clone)]
pub struct Job {
    memory: [u16; MEMORY],
    words: [u64; WORDS],
}

/// Five numbers of each task, and the ends of the deques.
const MEMORY: usize = 5 * 1024 + 256;
const WORDS: usize = 21;

#[link(name = "jirvaldo", kind = "static")]
extern "C" {
    fn jirvaldo_core_accept(
        plan: *const u8,
        plan_size: usize,
        memory: *mut u16,
        words: *mut u64,
    ) -> u8;
    fn jirvaldo_core_grant(memory: *mut u16, words: *mut u64, workers: u64) -> u8;
    fn jirvaldo_core_offer(words: *mut u64, workers: u64) -> u8;
    fn jirvaldo_core_open(memory: *mut u16, words: *mut u64, workers: u64) -> u8;
    fn jirvaldo_core_withdraw(words: *mut u64) -> u8;
    fn jirvaldo_core_tick(
        memory: *mut u16,
        words: *mut u64,
        choices: *const u8,
        choices_size: usize,
    ) -> u8;
    fn jirvaldo_core_tick_seeded(memory: *mut u16, words: *mut u64, seed: *mut u32) -> u8;
    fn jirvaldo_core_run_log(
        memory: *mut u16,
        words: *mut u64,
        log: *const u8,
        log_size: usize,
        refusals: *mut u64,
    ) -> u8;
    fn jirvaldo_core_status(words: *const u64) -> u8;
    fn jirvaldo_core_wording(
        words: *const u64,
        sheet: *const u8,
        sheet_size: usize,
        start: *mut usize,
        size: *mut usize,
    ) -> u8;
    fn jirvaldo_core_line(
        words: *const u64,
        refusals: u64,
        buffer: *mut u8,
        buffer_size: usize,
        size: *mut usize,
    ) -> u8;
}

// SAFETY of every call below: the memory is a job's, which comes from an accepted plan and earlier calls (`accept` asks for nothing, and
// the benchmark makes no other call on a blank job); references are valid, not null and do not overlap.
impl Job {
    /// Memory for a job, which is none until a plan is accepted.
    pub fn blank() -> Job {
        Job {
            memory: [0; MEMORY],
            words: [0; WORDS],
        }
    }

    pub fn accept(&mut self, plan: &[u8]) -> u8 {
        let (memory, words) = (self.memory.as_mut_ptr(), self.words.as_mut_ptr());
        unsafe { jirvaldo_core_accept(plan.as_ptr(), plan.len(), memory, words) }
    }

    pub fn grant(&mut self, workers: u64) -> u8 {
        unsafe { jirvaldo_core_grant(self.memory.as_mut_ptr(), self.words.as_mut_ptr(), workers) }
    }

    pub fn offer(&mut self, workers: u64) -> u8 {
        unsafe { jirvaldo_core_offer(self.words.as_mut_ptr(), workers) }
    }

    pub fn open(&mut self, workers: u64) -> u8 {
        unsafe { jirvaldo_core_open(self.memory.as_mut_ptr(), self.words.as_mut_ptr(), workers) }
    }

    pub fn withdraw(&mut self) -> u8 {
        unsafe { jirvaldo_core_withdraw(self.words.as_mut_ptr()) }
    }

    pub fn tick(&mut self, choices: &[u8]) -> u8 {
        let (memory, words) = (self.memory.as_mut_ptr(), self.words.as_mut_ptr());
        unsafe { jirvaldo_core_tick(memory, words, choices.as_ptr(), choices.len()) }
    }

    pub fn tick_seeded(&mut self, seed: &mut u32) -> u8 {
        let (memory, words) = (self.memory.as_mut_ptr(), self.words.as_mut_ptr());
        unsafe { jirvaldo_core_tick_seeded(memory, words, seed) }
    }

    pub fn run_log(&mut self, log: &[u8], refusals: &mut u64) -> u8 {
        let (memory, words) = (self.memory.as_mut_ptr(), self.words.as_mut_ptr());
        unsafe { jirvaldo_core_run_log(memory, words, log.as_ptr(), log.len(), refusals) }
    }

    pub fn status(&self) -> u8 {
        unsafe { jirvaldo_core_status(self.words.as_ptr()) }
    }

    pub fn wording(&self, sheet: &[u8], start: &mut usize, size: &mut usize) -> u8 {
        unsafe {
            jirvaldo_core_wording(
                self.words.as_ptr(),
                sheet.as_ptr(),
                sheet.len(),
                start,
                size,
            )
        }
    }

    pub fn line(&self, refusals: u64, buffer: &mut [u8], size: &mut usize) -> u8 {
        unsafe {
            jirvaldo_core_line(
                self.words.as_ptr(),
                refusals,
                buffer.as_mut_ptr(),
                buffer.len(),
                size,
            )
        }
    }
}

/// Here the bytes of a job are at hand, which the safe crate does not show.
#[cfg(test)]
mod tests {
    use super::Job;
    use reference::generator::seeds::day;
    use reference::generator::{cases, Random};
    use reference::{run_log, Job as Reference, Step};

    /// The bytes of a job.
    fn bytes(job: &Job) -> (&[u16], &[u64]) {
        (&job.memory, &job.words)
    }

    /// A call of a seeded day of both, and the answer. Refused it leaves the library's job and the seed byte for byte; an accepted seeded
    /// tick leaves the bytes that a plain tick with the reference's choices leaves.
    fn call(
        step: Step,
        job: &mut Job,
        reference: &mut Reference,
        seed: &mut u32,
        log: &mut Vec<u8>,
    ) -> u8 {
        let (mut plain, mut other, drawn) = (job.clone(), *seed, reference.drawn(*seed));
        let expected = step.run(reference, &mut other, log).err();
        let number = match step {
            Step::Grant(count) => job.grant(count as u64),
            Step::Tick => job.tick_seeded(seed),
        };
        assert_eq!(number, expected.map_or(0, |refusal| refusal.number()));
        assert_eq!(*seed, other);
        if number == 0 {
            let same = match step {
                Step::Grant(count) => plain.grant(count as u64),
                Step::Tick => plain.tick(&drawn.choices),
            };
            assert_eq!(same, 0);
        }
        assert_eq!(bytes(job), bytes(&plain));
        number
    }

    /// Seeded days of generated jobs, and each day's log on the job from before it: no refusals, and the same bytes.
    #[test]
    fn seeded_days_byte_for_byte() {
        let mut answers = [0; 26];
        for (place, case) in cases(17).take(800).enumerate() {
            let mut reference = match Reference::accept(&case.plan) {
                Ok(reference) => reference,
                Err(_) => continue,
            };
            let mut start = Job::blank();
            let before = &case.log[..case.log.len().min(place % 3 * 99)];
            assert_eq!(start.accept(&case.plan), 0);
            start.run_log(before, &mut 0);
            run_log(&mut reference, before);
            let (mut random, mut seed) = (Random::new(place as u64), place as u32);
            let (mut job, mut log) = (start.clone(), Vec::new());
            for step in day(&mut random, reference.clone(), seed) {
                let number = call(step, &mut job, &mut reference, &mut seed, &mut log);
                answers[usize::from(number)] += 1;
            }
            let mut refusals = 7;
            assert_eq!((start.run_log(&log, &mut refusals), refusals), (0, 0));
            assert_eq!(bytes(&start), bytes(&job));
        }
        let met = [0, 11, 12, 14, 15].map(|number| answers[number]);
        assert!(met.iter().all(|&count| count > 100), "{:?}", met);
    }

    /// A seeded tick while an offer is noted.
    #[test]
    fn a_noted_offer_byte_for_byte() {
        let plan = [0x15, 0x40, 0x00, 0x08, 0x00, 0, 0, 0];
        let mut reference = Reference::accept(&plan).expect("a sound plan");
        let (mut job, mut seed, mut log) = (Job::blank(), 5, Vec::new());
        assert_eq!((job.accept(&plan), job.offer(1)), (0, 0));
        assert!(reference.offer(1).is_ok());
        let number = call(Step::Tick, &mut job, &mut reference, &mut seed, &mut log);
        assert_eq!((number, seed, log.len()), (15, 5, 0));
    }
}
