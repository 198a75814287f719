//! The label: one wording a status, from the buyer's own sheet.

use crate::job::Status;
use crate::refusal::Refusal;

/// The wording for a status: that stretch of the label sheet (document 01:
/// wording sheet) itself, without byte 10. The sheet has one line a status,
/// from status 0; a stretch that byte 10 does not end is no line. An empty
/// line is a line. Where the sheet lacks the line it is refusal 19, and the
/// part that document 01 names beside the number is empty.
pub fn wording(sheet: &[u8], status: Status) -> Result<&[u8], Refusal> {
    sheet
        .split_inclusive(|&byte| byte == b'\n')
        .nth(usize::from(status.number()))
        .and_then(|line| line.strip_suffix(b"\n"))
        .ok_or(Refusal::WordingMissing)
}
