//! 01's tables worked by hand, each with the numbers that stand there. They are asked of the library and, where it can try every
//! pattern, of the reference too.

use crate::call::{Ask, Call};

/// Who answers: the library or the reference.
pub type Side = fn(&mut Call) -> u64;

const CASE_5: [u32; 8] = [0, 3, 20, 2, 4, 1, 15, 5];
const CASE_7: [u32; 8] = [0, 3, 20, 2, 4, 1, 14, 5];
const CASE_14: [u8; 25] = [3, 0, 1, 0, 2, 18, 0, 2, 0, 0, 0, 0, 0, 2, 0, 0, 0, 4, 0, 0, 0, 1, 0, 0, 0];

const SOUND: u64 = 0;
fn miss(job: u64) -> u64 {
    1 + job
}
fn refused(number: u64, place: u64) -> u64 {
    number << 56 | place
}

/// The judge's verdict, latest finishes, margins and pattern.
fn judge(side: Side, table: &[u32], k: u32) -> (u64, Vec<u32>, Vec<i32>, Vec<u32>) {
    let mut call = Call { k, times: vec![99; table.len() / 4], pattern: vec![99; table.len() / 4], ..Call::new(Ask::Judge, table) };
    let verdict = side(&mut call);
    let margins = (0..call.n()).map(|job| table[4 * job + 2] as i32 - call.times[job] as i32).collect();
    (verdict, call.times, margins, call.pattern)
}

fn schedule(side: Side, table: &[u32], pattern: &[u32]) -> (u64, Vec<u32>) {
    let mut call = Call { pattern: pattern.to_vec(), times: vec![99; pattern.len()], ..Call::new(Ask::Schedule, table) };
    (side(&mut call), call.times)
}

fn read(side: Side, file: &[u8]) -> (u64, Vec<u32>) {
    let mut call = Call { file: file.to_vec(), ..Call::new(Ask::Read, &[99; 4]) };
    (side(&mut call), call.table)
}

/// Check the cases 1 to 16, which every side can answer.
pub fn cases(side: Side, check: &mut dyn FnMut(u32, bool)) {
    for k in 0..=8 {
        check(1, judge(side, &[], k) == (SOUND, vec![], vec![], vec![]));
    }

    check(2, judge(side, &[0, 2, 4, 1], 2) == (SOUND, vec![4], vec![0], vec![0]));
    check(3, judge(side, &[0, 2, 3, 1], 2) == (miss(0), vec![4], vec![-1], vec![2]));
    check(4, schedule(side, &CASE_5, &[1, 1]) == (0, vec![11, 10]));
    check(5, judge(side, &CASE_5, 2) == (SOUND, vec![11, 15], vec![9, 0], vec![0, 0]));
    check(6, judge(side, &CASE_5, 1) == (SOUND, vec![6, 10], vec![14, 5], vec![0, 0]));
    check(7, judge(side, &CASE_7, 2) == (miss(1), vec![11, 15], vec![9, -1], vec![0, 2]));
    check(8, judge(side, &[5, 1, 3, 0], 0) == (miss(0), vec![6], vec![-3], vec![0]));

    let (verdict, latest, margins, pattern) = judge(side, &[0, 2, 4, 1, 0, 2, 4, 1], 1);
    check(9, (verdict, latest, margins) == (miss(1), vec![3, 5], vec![1, -1]));
    check(9, pattern == [1, 0] || pattern == [0, 1]);

    check(10, schedule(side, &[1, 2, 9, 0, 0, 3, 9, 0], &[0, 0]) == (0, vec![3, 5]));
    check(11, judge(side, &[0, 1, 1, 0], 8) == (SOUND, vec![1], vec![0], vec![0]));
    check(12, judge(side, &[1_000_000, 100_000, 1_900_000, 100_000], 8) == (SOUND, vec![1_900_000], vec![0], vec![0]));
    check(12, judge(side, &[1_000_000, 100_000, 1_899_999, 100_000], 8) == (miss(0), vec![1_900_000], vec![-1], vec![8]));
    check(13, side(&mut Call { a: 3, b: 5, ..Call::new(Ask::FreeSlots, &CASE_5) }) == 1);

    check(14, read(side, &CASE_14) == (256 * 2 + 1, vec![0, 2, 4, 1]));
    check(14, read(side, &CASE_14[..24]) == (refused(20, 5), vec![99; 4]));
    // 02, T-01: a missing head means k = 2, and the empty file gives k = 2 and no jobs.
    check(14, read(side, &CASE_14[5..]) == (256 * 2 + 1, vec![0, 2, 4, 1]));
    check(14, read(side, &[]) == (256 * 2, vec![99; 4]));

    check(15, judge(side, &[0, 0, 4, 1], 2).0 == refused(3, 1));
    check(15, judge(side, &[0, 0, 4, 1], 9).0 == refused(3, 1));

    let mut delays = Call { k: 2, times: vec![99; 2], ..Call::new(Ask::Delays, &CASE_5) };
    check(16, side(&mut delays) == 0 && delays.times == [4, 10]);
}

/// Case 17: about 12,000,000,000 patterns, for the library alone. Job 63 ends at 72 only if all eight faults happen.
pub fn case_17(library: Side, check: &mut dyn FnMut(u32, bool)) {
    let table = [0, 1, 72, 1].repeat(64);
    let (verdict, latest, margins, pattern) = judge(library, &table, 8);
    check(17, verdict == SOUND && pattern == [0; 64]);
    check(17, (0..64).all(|job| latest[job] == job as u32 + 9));
    check(17, margins[63] == 0);
    let mut call = Call { k: 8, job: 63, pattern: vec![99; 64], ..Call::new(Ask::Pattern, &table) };
    check(17, library(&mut call) == 0 && call.pattern.iter().map(|&f| f as u64).sum::<u64>() == 8);
}
