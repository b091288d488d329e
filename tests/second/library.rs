//! The library through its C interface. The lists of a call are copied between fences of marked words, and lent from there, so that
//! an ask which writes where it should not is seen.

use crate::call::{Ask, Call};

extern "C" {
    fn carolwindow_schedule(
        table: *const u32, table_length: usize, pattern: *const u32, pattern_length: usize, finishes: *mut u32, finishes_length: usize,
    ) -> u64;
    fn carolwindow_free_slots(table: *const u32, table_length: usize, a: u32, b: u32) -> u64;
    fn carolwindow_delays(table: *const u32, table_length: usize, k: u32, delays: *mut u32, delays_length: usize) -> u64;
    fn carolwindow_judge(
        table: *const u32, table_length: usize, k: u32, finishes: *mut u32, finishes_length: usize, pattern: *mut u32,
        pattern_length: usize,
    ) -> u64;
    fn carolwindow_pattern(
        table: *const u32, table_length: usize, k: u32, job: u32, pattern: *mut u32, pattern_length: usize,
    ) -> u64;
    fn carolwindow_read(file: *const u8, file_length: usize, table: *mut u32, table_length: usize) -> u64;
    fn carolwindow_write(table: *const u32, table_length: usize, k: u32, file: *mut u8, file_length: usize) -> u64;
}

const FENCE: usize = 6;
const MARK: u8 = 0xa5;

/// A list between two fences.
struct Fenced<T>(Vec<T>);

impl<T: Copy + PartialEq + From<u8>> Fenced<T> {
    fn around(list: &[T]) -> Fenced<T> {
        let fence = [T::from(MARK); FENCE];
        Fenced([&fence, list, &fence].concat())
    }

    fn lend(&mut self) -> (*mut T, usize) {
        (self.0[FENCE..].as_mut_ptr(), self.0.len() - 2 * FENCE)
    }

    /// The list as it is now, and whether a fence is broken.
    fn back(self) -> (Vec<T>, bool) {
        let end = self.0.len() - FENCE;
        let broken = self.0[..FENCE].iter().chain(&self.0[end..]).any(|&word| word != T::from(MARK));
        (self.0[FENCE..end].to_vec(), broken)
    }
}

/// The library's answer to a call; its buffers are filled, and given lists are copied back too.
pub fn answer(call: &mut Call) -> u64 {
    let Call { ask, k, a, b, job, .. } = *call;
    let mut table = Fenced::around(&call.table);
    let mut pattern = Fenced::around(&call.pattern);
    let mut times = Fenced::around(&call.times);
    let mut file = Fenced::around(&call.file);
    let (table_at, table_length) = table.lend();
    let (pattern_at, pattern_length) = pattern.lend();
    let (times_at, times_length) = times.lend();
    let (file_at, file_length) = file.lend();
    // Safe: each pointer is good for its length, no two lists overlap, and all of them outlive the call.
    let answer = unsafe {
        match ask {
            Ask::Schedule => {
                carolwindow_schedule(table_at, table_length, pattern_at, pattern_length, times_at, times_length)
            }
            Ask::FreeSlots => carolwindow_free_slots(table_at, table_length, a, b),
            Ask::Delays => carolwindow_delays(table_at, table_length, k, times_at, times_length),
            Ask::Judge => {
                carolwindow_judge(table_at, table_length, k, times_at, times_length, pattern_at, pattern_length)
            }
            Ask::Pattern => carolwindow_pattern(table_at, table_length, k, job, pattern_at, pattern_length),
            Ask::Read => carolwindow_read(file_at, file_length, table_at, table_length),
            Ask::Write => carolwindow_write(table_at, table_length, k, file_at, file_length),
        }
    };
    let mut broken = [false; 4];
    (call.table, broken[0]) = table.back();
    (call.pattern, broken[1]) = pattern.back();
    (call.times, broken[2]) = times.back();
    (call.file, broken[3]) = file.back();
    call.strayed = broken.contains(&true);
    answer
}
