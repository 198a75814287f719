//! Acceptance: one pass over the plan into a scratch, two over the scratch, and a copy into the job where every answer is yes.

use std::mem::MaybeUninit;

use super::{Job, Numbers, MOST_TASKS};

const HEADER_BYTES: usize = 5;
/// The bytes of a task in forms 1 and 3, and in form 2, where the last one is its ticks.
const SHORT: usize = 3;
const LONG: usize = 4;

/// The fields of the first 40 bits.
#[derive(Clone, Copy)]
struct Header {
    is_lasting: bool,
    responsiveness: u8,
    utilization: u8,
    quantum_length: u16,
    tasks: usize,
}

/// A plan's graph as it is read. Only the first `tasks` items are there, and ticks only in form 2. Behind the counts of predecessors is room
/// where unused fields are counted, in turn at several places: counting at one place only would make each count wait for the last one.
struct Scratch {
    first: [u16; MOST_TASKS],
    second: [u16; MOST_TASKS],
    ticks: [u8; MOST_TASKS],
    predecessors: [u16; MOST_TASKS + UNUSED],
}

const UNUSED: usize = 16;

/// Questions 1 to 6.
#[inline(always)]
fn read_header(plan: &[u8]) -> Result<Header, u8> {
    if plan.len() < HEADER_BYTES {
        return Err(1);
    }
    let high = u32::from_be_bytes([plan[0], plan[1], plan[2], plan[3]]);
    let form = high >> 28;
    // the place of D, the bits of L and R, the least and the most R
    let (place, long, wide, least, most) = match form {
        3 => (16, 0x3fff, 31, 12, 20),
        _ => (18, 0xffff, 7, 2, 7),
    };
    let header = Header {
        is_lasting: form == 2,
        responsiveness: (high >> (place + 7) & wide) as u8,
        utilization: (high >> place & 127) as u8,
        quantum_length: (high >> 2 & long) as u16,
        tasks: ((high & 3) << 8 | u32::from(plan[4])) as usize + 1,
    };
    let task_bytes = if header.is_lasting { LONG } else { SHORT };
    if form.wrapping_sub(1) >= 3 {
        Err(2)
    } else if header.responsiveness < least || header.responsiveness > most {
        Err(3)
    } else if header.utilization.wrapping_sub(1) >= 100 {
        Err(4)
    } else if header.quantum_length == 0 {
        Err(5)
    } else if plan.len() != HEADER_BYTES + task_bytes * header.tasks {
        Err(6)
    } else {
        Ok(header)
    }
}

/// Which of the questions 7, 8 and 28 has the answer no; 0 for none.
#[cold]
fn task_refusal(word: usize, ticks: usize, task: usize, tasks: usize) -> u8 {
    let (count, first, second) = (word >> 22, word >> 11 & 0x7ff, word & 0x7ff);
    let named = |s: usize| s > task && s < tasks;
    let is_sound = match count {
        0 => word == 0,
        1 => second == 0 && named(first),
        _ => count == 2 && named(first) && named(second) && first != second,
    };
    match count {
        _ if is_sound && ticks == 0 => 28,
        _ if is_sound => 0,
        1 if second == 0 => 8,
        2 => 8,
        _ => 7,
    }
}

/// Reads the tasks in rising order, of so many bytes each. Question 7, 8 or 28 where the answer is no, else how many tasks have no successor.
///
/// # Safety
/// The plan has the bytes of so many tasks, at most 1,024; the scratch's `predecessors` are 0.
#[inline(always)]
unsafe fn read_tasks<const BYTES: usize>(
    plan: &[u8],
    tasks: usize,
    scratch: *mut Scratch,
) -> Result<usize, u8> {
    let first_of = std::ptr::addr_of_mut!((*scratch).first) as *mut u16;
    let second_of = std::ptr::addr_of_mut!((*scratch).second) as *mut u16;
    let ticks_of = std::ptr::addr_of_mut!((*scratch).ticks) as *mut u8;
    let predecessors = std::ptr::addr_of_mut!((*scratch).predecessors) as *mut u16;
    let mut loose = 0;
    let mut from = plan.as_ptr().add(HEADER_BYTES + BYTES - 4) as *const [u8; 4];
    for task in 0..tasks {
        // four bytes: the task's own, or the last one before its three, and these
        let bits = u32::from_be_bytes(from.read_unaligned()) as usize;
        from = (from as *const u8).add(BYTES) as *const [u8; 4];
        let (word, ticks) = if BYTES == LONG {
            (bits >> 8, bits & 0xff)
        } else {
            (bits & 0xff_ffff, 1)
        };
        let (count, first, second) = (word >> 22, word >> 11 & 0x7ff, word & 0x7ff);
        let (low, room) = (task + 1, tasks - task - 1);
        // all ones where the second field is used; it lies from `low` up then, and is 0 else
        let used = (count >> 1).wrapping_neg();
        let first_fits = first.wrapping_sub(low) < room;
        let second_room = (room.wrapping_sub(1) & used).wrapping_add(1);
        let second_fits = second.wrapping_sub(low & used) < second_room;
        let fits = first_fits & second_fits & (first != second) & (ticks != 0);
        if !((count.wrapping_sub(1) < 2) & fits) {
            let number = task_refusal(word, ticks, task, tasks);
            if number != 0 {
                return Err(number);
            }
            loose += 1;
        }
        first_of.add(task).write(first as u16);
        second_of.add(task).write(second as u16);
        if BYTES == LONG {
            ticks_of.add(task).write(ticks as u8);
        }
        *predecessors.add(first) += 1;
        *predecessors.add(second | (MOST_TASKS + task % UNUSED) & !used) += 1;
    }
    Ok(loose)
}

impl Job {
    /// A plan of any bytes: the job becomes its fresh job, or stays as it was where the answer is 1 to 10 or 28.
    #[inline(never)]
    pub fn accept(&mut self, plan: &[u8]) -> u8 {
        let header = match read_header(plan) {
            Ok(header) => header,
            Err(number) => return number,
        };
        let tasks = header.tasks;
        let mut scratch = MaybeUninit::<Scratch>::uninit();
        let scratch = scratch.as_mut_ptr();
        // SAFETY: the header's questions give the plan's length; the counts are made 0 here, and a successor that is counted is below
        // `tasks`. Of the scratch only what was written is read.
        unsafe {
            let predecessors = std::ptr::addr_of_mut!((*scratch).predecessors) as *mut u16;
            predecessors.write_bytes(0, MOST_TASKS + UNUSED);
            let read = if header.is_lasting {
                read_tasks::<LONG>(plan, tasks, scratch)
            } else {
                read_tasks::<SHORT>(plan, tasks, scratch)
            };
            let loose = match read {
                Ok(loose) => loose,
                Err(number) => return number,
            };
            predecessors.write(1);
            let counts = std::slice::from_raw_parts(predecessors, tasks);
            if counts
                .iter()
                .fold(false, |bad, &c| bad | (c.wrapping_sub(1) >= 2))
            {
                return 9;
            }
            if loose > 1 {
                return 10;
            }
            predecessors.write(0);
            self.fill(header, scratch);
        }
        0
    }

    /// The fresh job of a plan. All memory of the job gets a value, past the last task too.
    ///
    /// # Safety
    /// The scratch holds `header.tasks` tasks.
    #[inline(always)]
    unsafe fn fill(&mut self, header: Header, scratch: *const Scratch) {
        let tasks = header.tasks;
        let first =
            std::slice::from_raw_parts(std::ptr::addr_of!((*scratch).first) as *const u16, tasks);
        let second =
            std::slice::from_raw_parts(std::ptr::addr_of!((*scratch).second) as *const u16, tasks);
        let counts = std::slice::from_raw_parts(
            std::ptr::addr_of!((*scratch).predecessors) as *const u16,
            tasks,
        );
        let tables = &mut self.tables;
        tables.first[..tasks].copy_from_slice(first);
        tables.first[tasks..].fill(0);
        tables.second[..tasks].copy_from_slice(second);
        tables.second[tasks..].fill(0);
        tables.pending[..tasks]
            .iter_mut()
            .zip(counts)
            .for_each(|(p, &c)| *p = c as u8);
        tables.pending[tasks..].fill(0);
        if header.is_lasting {
            let ticks = std::ptr::addr_of!((*scratch).ticks) as *const u8;
            tables.left[..tasks].copy_from_slice(std::slice::from_raw_parts(ticks, tasks));
        } else {
            tables.left[..tasks].fill(1);
        }
        tables.left[tasks..].fill(0);
        tables.next.fill(0);
        tables.ends.fill(0);
        self.numbers = Numbers {
            tasks: tasks as u16,
            is_lasting: header.is_lasting,
            quantum_length: header.quantum_length,
            responsiveness: header.responsiveness,
            utilization: header.utilization,
            desire: 1,
            ..Numbers::default()
        };
    }
}
