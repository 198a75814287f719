//! What must hold after every call of a few thousand random cases. The
//! checks keep their own account of the tasks, from the plan and the reports.

use reference::generator::{cases, Case};
use reference::{program_output, rest, run_log_with, Cycle, Entries, Entry, Growth, Job, Plan};
use reference::{Refusal, Report, Rest, Rules, Status, TickReport};

/// What the checks remember of a job's calls.
struct Witness {
    /// Of each task, the ticks done.
    done: Vec<u8>,
    largest_allotment: usize,
}

#[test]
fn random_cases() {
    let mut accepted = 0;
    for case in cases(3).take(3_000) {
        if let Ok(job) = Job::accept(&case.plan) {
            accepted += 1;
            follow(job, &case.log);
        }
        assert!(program_output(&case.input).ends_with('\n'));
    }
    assert!(accepted > 2_000, "only {accepted} plans were accepted");
}

/// Whether after each call of a log the work, mug and steal cycles add up to
/// the granted workers of all accepted ticks. That sum is read from the calls,
/// and from whether they were accepted.
fn counts_whole_ticks(mut job: Job, log: &[u8]) -> bool {
    let (mut granted, mut sum, mut same) = (0, 0, true);
    run_log_with(&mut job, log, |job, entry, answer| {
        match *entry {
            _ if answer.is_err() => (),
            Entry::Grant(count) => granted = count as u64,
            Entry::Tick(_) => sum += granted,
        }
        same &= job.work_cycles() + job.mug_cycles() + job.steal_cycles() == sum;
    });
    same
}

/// How many random cases do not, where the job follows that rule.
fn not_whole(rest: Rest, count: usize) -> usize {
    let rules = Rules {
        rest,
        ..Rules::default()
    };
    let other = |case: &Case| {
        let job = Job::accept(&case.plan).ok();
        job.map_or(false, |job| {
            !counts_whole_ticks(job.with_rules(rules), &case.log)
        })
    };
    cases(5).take(count).filter(other).count()
}

/// Request U6's sum. A success or a mug cycle in the place of a steal cycle in
/// vain leaves it as it is.
#[test]
fn cycles_are_the_granted_workers_of_the_ticks() {
    assert_eq!(not_whole(Rest::default(), 3_000), 0);
    for rest in rest::BENT {
        let found = not_whole(rest, 300);
        let other_kind = matches!(rest, Rest::EachSucceeds | Rest::EachMugs);
        assert_eq!(found == 0, other_kind, "{found} with {rest:?}");
    }
}

/// Follows a log and checks the job after each call.
fn follow(mut job: Job, log: &[u8]) {
    let mut witness = Witness {
        done: vec![0; job.plan().task_count()],
        largest_allotment: 0,
    };
    check_state(&job, &witness);
    for (index, item) in Entries::new(log).enumerate() {
        let entry = match item {
            Ok(entry) => entry,
            Err(_) => break,
        };
        let before = job.clone();
        let answer = entry.apply(&mut job);
        witness.check_call(&before, &entry, &answer, &job);
        // Late in a long log little happens: every tenth state is enough.
        if index < 3_000 || index % 10 == 0 {
            check_state(&job, &witness);
        }
    }
}

impl Witness {
    fn check_call(
        &mut self,
        before: &Job,
        entry: &Entry,
        answer: &Result<Report, Refusal>,
        job: &Job,
    ) {
        match (entry, answer) {
            (_, Err(_)) => assert_eq!(before, job, "a refused call changed the job"),
            (Entry::Grant(allotment), _) => {
                self.largest_allotment = self.largest_allotment.max(*allotment);
                assert_eq!(job.allotment(), *allotment);
                assert_eq!(job.quanta_begun(), before.quanta_begun() + 1);
            }
            (_, Ok(Report::Tick(report))) => {
                self.check_order(job.plan(), &report.cycles);
                check_progress(before, job);
                check_cycles(before, job, report);
                check_thefts(&report.cycles);
            }
            _ => panic!("a tick with a grant's report"),
        }
    }

    /// Each task is worked for its ticks, and after all its predecessors.
    fn check_order(&mut self, plan: &Plan, cycles: &[Cycle]) {
        for cycle in cycles {
            if let Cycle::Work { task, tick, .. } = *cycle {
                let task = usize::from(task);
                assert!(!self.is_worked(plan, task), "task {task} worked on");
                assert!(self.is_ready(plan, task), "task {task} worked early");
                assert_eq!(tick.is_first, self.done[task] == 0);
                self.done[task] += 1;
                assert_eq!(tick.is_last, self.is_worked(plan, task));
            }
        }
    }

    fn is_worked(&self, plan: &Plan, task: usize) -> bool {
        self.done[task] == plan.tasks()[task].ticks()
    }

    fn is_ready(&self, plan: &Plan, task: usize) -> bool {
        let mut before = plan.tasks()[task].predecessors().iter();
        before.all(|&p| self.is_worked(plan, usize::from(p)))
    }
}

/// A tick with a worker granted does a work or mug cycle.
fn check_progress(before: &Job, job: &Job) {
    let useful = |job: &Job| job.work_cycles() + job.mug_cycles();
    if job.allotment() > 0 {
        assert!(useful(job) > useful(before), "an idle tick");
    }
    assert_eq!(job.allotment(), before.allotment());
}

/// The counts move by the cycles of their own kind, one a worker; for a worker
/// after the finisher it is a steal cycle in vain.
fn check_cycles(before: &Job, job: &Job, report: &TickReport) {
    let TickReport { cycles, rested, .. } = report;
    let count = |wanted: fn(&Cycle) -> bool| cycles.iter().filter(|c| wanted(c)).count() as u64;
    let work = count(|c| matches!(c, Cycle::Work { .. }));
    let mug = count(|c| matches!(c, Cycle::Mug { .. }));
    let steal = count(|c| matches!(c, Cycle::Steal { .. }));
    let stolen = count(|c| matches!(c, Cycle::Steal { stolen, .. } if *stolen > 0));
    assert_eq!(job.work_cycles() - before.work_cycles(), work);
    assert_eq!(job.mug_cycles() - before.mug_cycles(), mug);
    let all_steals = steal + *rested as u64;
    assert_eq!(job.steal_cycles() - before.steal_cycles(), all_steals);
    assert_eq!(job.successful_steals() - before.successful_steals(), stolen);
    assert_eq!(cycles.len() + rested, job.allotment());
    assert!(*rested == 0 || job.is_finished());
    if let (Some(old), Some(new)) = (before.open_quantum(), job.open_quantum()) {
        assert_eq!(new.ticks, old.ticks + 1);
        assert_eq!(new.usage, old.usage + work + mug);
    }
}

/// A steal takes half of two or more tasks, rounded down, and nothing of fewer.
fn check_thefts(cycles: &[Cycle]) {
    for cycle in cycles {
        if let Cycle::Steal { stolen, left, .. } = *cycle {
            let had = stolen + left;
            assert_eq!(stolen, if had < 2 { 0 } else { had / 2 });
        }
    }
}

/// What holds of a job at any time.
fn check_state(job: &Job, witness: &Witness) {
    check_limit(job);
    check_deques(job, witness);
    let ticks = job.plan().tasks().iter().map(|task| task.ticks());
    let left: Vec<u8> = ticks
        .zip(&witness.done)
        .map(|(all, done)| all - done)
        .collect();
    assert_eq!(job.left(), left);
    let worked: Vec<bool> = left.iter().map(|&left| left == 0).collect();
    assert_eq!(job.worked().collect::<Vec<_>>(), worked);
    let count = worked.iter().filter(|&&worked| worked).count();
    assert_eq!(job.worked_count(), count as u64);
    let done: u64 = witness.done.iter().map(|&ticks| u64::from(ticks)).sum();
    assert_eq!(job.work_cycles(), done);
    assert_eq!(job.status() == Status::Finished, count == worked.len());
    assert_eq!(job.ever_granted(), witness.largest_allotment > 0);
    check_desire(job);
}

/// The desire is the whole part of R to the power. In doubles, which are exact
/// enough: only 2.0 has a power with a whole part so near.
fn check_desire(job: &Job) {
    let ratio = match job.plan().growth() {
        Growth::Factor(r) => f64::from(r),
        Growth::Tenths(tenths) => f64::from(tenths) / 10.0,
    };
    let power = ratio.powi(job.power() as i32);
    assert_eq!(job.desire() as f64, power.floor());
    assert!(job.desire() <= 64);
}

/// The two sides of the mug limit: M x L x D is at most 100 x (1 + R) x (W + M),
/// and with t tenths M x L x D x 10 at most 100 x (10 + 2 x t) x (W + M).
pub fn mug_limit(job: &Job) -> (u128, u128) {
    let (plan, mug) = (job.plan(), u128::from(job.mug_cycles()));
    let product = mug * u128::from(plan.quantum_length()) * u128::from(plan.utilization());
    let useful = u128::from(job.work_cycles()) + mug;
    match plan.growth() {
        Growth::Factor(r) => (product, 100 * (1 + u128::from(r)) * useful),
        Growth::Tenths(t) => (product * 10, 100 * (10 + 2 * u128::from(t)) * useful),
    }
}

fn check_limit(job: &Job) {
    let (mugs, limit) = mug_limit(job);
    assert!(mugs <= limit, "the mug limit is broken");
}

/// From the first grant above 0 the deques hold each ready unworked task
/// once and nothing else, only at their fronts begun ones, and no more of them
/// are non-empty than workers were ever granted together.
fn check_deques(job: &Job, witness: &Witness) {
    let muggable = job.muggable_deques();
    assert!(muggable.iter().all(|deque| !deque.is_empty()));
    let all = || job.deques().iter().chain(muggable.iter().copied());
    let mut behind = all().flat_map(|deque| deque.iter().skip(1));
    assert!(behind.all(|&task| witness.done[usize::from(task)] == 0));
    let mut held: Vec<usize> = all().flatten().map(|&task| usize::from(task)).collect();
    held.sort_unstable();
    let plan = job.plan();
    let waits = |&task: &usize| !witness.is_worked(plan, task) && witness.is_ready(plan, task);
    let ready: Vec<usize> = (0..witness.done.len()).filter(waits).collect();
    let expected = if job.ever_granted() { ready } else { vec![] };
    assert_eq!(held, expected, "the deques do not hold the ready tasks");
    let busy = job.deques().iter().filter(|deque| !deque.is_empty());
    assert!(busy.count() + muggable.len() <= witness.largest_allotment);
}
