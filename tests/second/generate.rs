//! Random tables, calls and files, good ones and spoiled ones.

use crate::call::{Ask, Call};
use crate::dice::Dice;
use crate::reference;

/// A table of n jobs with small times: ready times that spread with n, deadlines tight or loose, often equal, at times before R + C.
pub fn small_table(dice: &Dice, n: usize) -> Vec<u32> {
    let ready = dice.pick(&[0, 3, 10, 25]) * (1 + n as u32 / 8);
    let longest = dice.pick(&[1, 3, 6]);
    let recovery = dice.pick(&[0, 1, 4, 9]);
    let loose = dice.pick(&[0, 4, 12, 40]);
    let from_ready = dice.one_in(2);
    let mut table = vec![];
    for _ in 0..n {
        let (r, c) = (dice.within(0, ready), dice.within(1, longest));
        let d = dice.within(0, loose) + if from_ready { r + c } else { n as u32 * longest / 2 };
        table.extend([r, c, d, dice.within(0, recovery)]);
    }
    table
}

/// Every ask about a table, with buffers of just the length or longer.
pub fn asks(dice: &Dice, table: &[u32], k: u32) -> Vec<Call> {
    let n = table.len() / 4;
    let last = table.chunks(4).map(|row| row[0] + row[1]).sum::<u32>().min(9_000_000);
    let mut calls = vec![];
    for ask in Ask::ALL {
        let longer = dice.pick(&[0, 0, 1, 5]);
        let mut call = Call::new(ask, table);
        if matches!(ask, Ask::Delays | Ask::Judge | Ask::Pattern | Ask::Write) {
            call.k = k;
        }
        match ask {
            Ask::Schedule => {
                call.pattern = vec![0; n];
                for _ in 0..dice.below(if n == 0 { 1 } else { 9 }) {
                    call.pattern[dice.below(n)] += 1;
                }
                call.times = dice.words(n + longer);
            }
            Ask::FreeSlots => (call.a, call.b) = (dice.within(0, last + 5), dice.within(0, last + 20)),
            Ask::Delays => call.times = dice.words(n + longer),
            Ask::Judge => {
                call.times = dice.words(n + longer);
                call.pattern = dice.words(n + dice.pick(&[0, 0, 1, 5]));
            }
            Ask::Pattern => {
                call.job = dice.below(n) as u32;
                call.pattern = dice.words(n + longer);
            }
            Ask::Read => {
                call.file = reference::written(table, k);
                call.table = dice.words(4 * n + longer);
            }
            Ask::Write => call.file = dice.bytes(5 + 20 * n + longer),
        }
        calls.push(call);
    }
    calls
}

/// Spoil a call so that this refusal applies, where it can.
pub fn spoil(dice: &Dice, call: &mut Call, number: u8) {
    let n = call.n();
    match number {
        1 => call.table.extend(vec![1; dice.pick(&[1, 2, 3])]),
        2 => {
            let rows = dice.pick(&[65, 65, 66, 100]);
            while call.n() < rows {
                call.table.extend([0, 1, 9, 1]);
            }
        }
        3 => {
            for _ in 0..dice.within(1, 2).min(n as u32) {
                let word = dice.below(call.table.len());
                let over = [1_000_001, 100_001, 10_000_001, 100_001][word % 4];
                let under = if word % 4 == 1 { 0 } else { over };
                call.table[word] = dice.pick(&[over, under, u32::MAX, 1 << 31]);
            }
        }
        4 => call.k = dice.pick(&[9, 10, 255, 256, 257, 1 << 31, u32::MAX]),
        5 => call.times.truncate(dice.below(n)),
        6 if call.ask == Ask::Schedule && dice.one_in(2) => call.pattern.push(0),
        6 => call.pattern.truncate(dice.below(n)),
        7 => {
            for count in call.pattern.iter_mut() {
                *count = dice.pick(&[0, 1, 9, 1 << 31, 1 << 31, u32::MAX]);
            }
        }
        8 => call.job = dice.pick(&[n as u32, n as u32 + 1, 64, 256, 1 << 31, u32::MAX]),
        9 => {
            let late = dice.pick(&[10_000_001, 1 << 31, u32::MAX]);
            *(if dice.one_in(2) { &mut call.a } else { &mut call.b }) = late;
        }
        28 => call.file.truncate(dice.below(5 + 20 * n)),
        _ => unreachable!(),
    }
}

/// The record of a head or of a job, as it should be.
fn good_record(dice: &Dice, kind: u8) -> Vec<u8> {
    let mut file = reference::written(&small_table(dice, 1), dice.within(0, 8));
    let job = file.split_off(5);
    if kind == 1 { file } else { job }
}

/// A record with one thing wrong: a value, the kind or the length.
fn bad_record(dice: &Dice, kind: u8) -> Vec<u8> {
    let mut record = good_record(dice, kind);
    match dice.below(5) {
        0 => record[0] = dice.pick(&[0, 1, 2, 3, 4, 17, 18, 19]),
        1 => record[2] = dice.pick(&[0, 3, 4, 255]),
        2 => record[3] = 1,
        3 if kind == 1 => record[4] = dice.pick(&[9, 10, 255]),
        3 => record[8..12].fill(0),
        _ => {
            let field = if kind == 1 { 0 } else { dice.below(4) };
            let last = record.len() - 1;
            record[last - 4 * field] = 200;
        }
    }
    record
}

/// A file of some records: mostly a head and a few jobs, at times about 64 of them, here and there a bad record, or a head where none
/// may be.
pub fn random_file(dice: &Dice) -> Vec<u8> {
    let many = dice.one_in(30);
    let jobs = if many { dice.within(62, 66) } else { dice.within(0, 5) };
    let rarely = if many { 300 } else { 20 };
    let record = |kind| if dice.one_in(rarely) { bad_record(dice, kind) } else { good_record(dice, kind) };
    let mut file = vec![];
    if !dice.one_in(4) {
        file.extend(record(1));
    }
    for _ in 0..jobs {
        file.extend(record(2));
        if dice.one_in(2 * rarely) {
            file.extend(record(1));
        }
    }
    if many && dice.one_in(4) {
        file.extend(bad_record(dice, 2));
    }
    file
}

/// Damage a file as a bad card might.
pub fn damage(dice: &Dice, file: &mut Vec<u8>) {
    let at = dice.below(file.len());
    match dice.below(6) {
        _ if file.is_empty() => *file = dice.bytes(dice.below(4)),
        0 => file[at] = dice.next() as u8,
        1 => file[at] ^= 1 << dice.below(8),
        2 => file.truncate(at),
        3 => drop(file.remove(at)),
        4 => file.insert(at, dice.pick(&[0, 1, 2, 3, 18, 255])),
        _ => file.extend(dice.bytes(dice.below(5))),
    }
}
