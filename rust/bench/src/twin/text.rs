//! The label and the count line.

use super::Job;

/// The digits of 0 to 99, two each.
const PAIRS: &[u8; 200] = b"\
00010203040506070809\
10111213141516171819\
20212223242526272829\
30313233343536373839\
40414243444546474849\
50515253545556575859\
60616263646566676869\
70717273747576777879\
80818283848586878889\
90919293949596979899";

/// The powers of 10 that a u64 holds, with 0 for the first: every number has a digit.
const POWERS: [u64; 20] = powers();

const fn powers() -> [u64; 20] {
    let mut powers = [0; 20];
    let mut power: u64 = 1;
    let mut at = 1;
    while at < 20 {
        power *= 10;
        powers[at] = power;
        at += 1;
    }
    powers
}

/// How many decimal digits a number has.
#[inline(always)]
fn digits(n: u64) -> usize {
    let bits = 64 - (n | 1).leading_zeros() as usize;
    let below = (bits * 1233) >> 12;
    below + usize::from(n >= POWERS[below])
}

/// Writes a number's digits and a byte after them; the place behind these.
///
/// # Safety
/// There is room for 21 bytes.
#[inline(always)]
unsafe fn put(at: *mut u8, n: u64, end: u8) -> *mut u8 {
    if n < 10 {
        at.write(b'0' + n as u8);
        at.add(1).write(end);
        return at.add(2);
    }
    let after = at.add(digits(n));
    let (mut rest, mut to) = (n, after);
    while rest >= 100 {
        let pair = (rest % 100) as usize;
        rest /= 100;
        to = to.sub(2);
        to.copy_from_nonoverlapping(PAIRS.as_ptr().add(2 * pair), 2);
    }
    if rest >= 10 {
        at.copy_from_nonoverlapping(PAIRS.as_ptr().add(2 * rest as usize), 2);
    } else {
        at.write(b'0' + rest as u8);
    }
    after.write(end);
    after.add(1)
}

/// The place behind the last byte of a line: the line's end that has `skip` others before it, and where its line starts.
#[cfg(target_arch = "x86_64")]
#[inline(always)]
fn find_line(sheet: &[u8], skip: u8) -> Option<(usize, usize)> {
    use std::arch::x86_64::{
        __m128i, _mm_cmpeq_epi8, _mm_loadu_si128, _mm_movemask_epi8, _mm_set1_epi8,
    };
    let (mut start, mut skip, mut base) = (0, skip, 0);
    while base + 16 <= sheet.len() {
        // SAFETY: 16 bytes are there, and SSE2 is part of x86-64.
        let mut found = unsafe {
            let bytes = _mm_loadu_si128(sheet.as_ptr().add(base) as *const __m128i);
            _mm_movemask_epi8(_mm_cmpeq_epi8(bytes, _mm_set1_epi8(10))) as u32
        };
        while found != 0 {
            let end = base + found.trailing_zeros() as usize;
            if skip == 0 {
                return Some((start, end));
            }
            skip -= 1;
            start = end + 1;
            found &= found - 1;
        }
        base += 16;
    }
    find_in_rest(sheet, skip, start, base)
}

#[cfg(not(target_arch = "x86_64"))]
#[inline(always)]
fn find_line(sheet: &[u8], skip: u8) -> Option<(usize, usize)> {
    find_in_rest(sheet, skip, 0, 0)
}

#[inline(always)]
fn find_in_rest(
    sheet: &[u8],
    mut skip: u8,
    mut start: usize,
    from: usize,
) -> Option<(usize, usize)> {
    for (end, &byte) in sheet.iter().enumerate().skip(from) {
        if byte == 10 {
            if skip == 0 {
                return Some((start, end));
            }
            skip -= 1;
            start = end + 1;
        }
    }
    None
}

impl Job {
    /// Where the wording of the job's status starts in the sheet, and its size; 19 where the sheet has no such line.
    #[inline(never)]
    pub fn wording(&self, sheet: &[u8], start: &mut usize, size: &mut usize) -> u8 {
        match find_line(sheet, self.numbers.status_number()) {
            Some((from, end)) => {
                *start = from;
                *size = end - from;
                0
            }
            None => {
                *start = 0;
                *size = 0;
                19
            }
        }
    }

    /// The count line at the start of a buffer, and its size; 20 where the buffer has fewer than 128 bytes.
    #[inline(never)]
    pub fn line(&self, refusals: u64, buffer: &mut [u8], size: &mut usize) -> u8 {
        if buffer.len() < 128 {
            *size = 0;
            return 20;
        }
        let start = buffer.as_mut_ptr();
        // SAFETY: the first five numbers have at most 1, 4, 4, 2 and 2 digits and the others 20, so with a byte after each it is 123 bytes.
        unsafe {
            let at = put(start, u64::from(self.numbers.status_number()), b' ');
            let at = put(at, u64::from(self.numbers.done), b' ');
            let at = put(at, u64::from(self.numbers.tasks), b' ');
            let at = put(at, u64::from(self.numbers.desire), b' ');
            let at = put(at, u64::from(self.numbers.workers), b' ');
            let at = put(at, self.numbers.works, b' ');
            let at = put(at, self.numbers.mugs, b' ');
            let at = put(at, self.numbers.steals, b' ');
            let at = put(at, self.numbers.successes, b' ');
            let at = put(at, refusals, b'\n');
            *size = at.offset_from(start) as usize;
        }
        0
    }
}
