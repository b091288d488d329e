//! The independent second program. It answers every ask by itself, slot by slot and pattern by pattern (reference.rs), puts the same
//! ask to the library through its C interface (library.rs), and compares the answer and every lent list. It also runs the rewriting
//! program (program.rs) and compares what that writes.
//!
//!   second              the fixed seed
//!   second SEED         another seed
//!   second trace SEED   the same, and each call is printed before it is put to the library, should one never come back
//!   second replay CALL  one call, as a difference prints it
//!
//! How much is tried is fixed by counts, never by time. The last line is `N passed, M failed`, counted in asks; exit status 1 if
//! any failed.

mod call;
mod dice;
mod generate;
mod library;
mod program;
mod reference;
mod worked;

use call::{Ask, Call};
use dice::Dice;
use generate::{asks, damage, random_file, small_table, spoil};
use std::collections::BTreeMap;
use std::process::exit;
use std::time::Instant;

const SEED: u64 = 20_000_622;
const SMALL_TABLES: u32 = 100_000;
const MIDDLE_TABLES: u32 = 1_000;
const FULL_TABLES: u32 = 12;
const LARGE_TABLES: u32 = 200;
const EXTREME_TABLES: u32 = 8;
const FILES: u32 = 150_000;
const REWRITTEN: u32 = 3_000;

/// What was tried, and how it went.
#[derive(Default)]
struct Count {
    passed: u64,
    failed: u64,
    /// For each ask, how often it was refused by each number; 0 stands for an answer.
    answers: BTreeMap<(Ask, u8), u64>,
    sound: u64,
    miss: u64,
    trace: bool,
}

impl Count {
    fn check(&mut self, passed: bool, say: impl FnOnce() -> String) {
        if passed {
            self.passed += 1;
            return;
        }
        self.failed += 1;
        if self.failed <= 10 {
            println!("DIFFERENCE {}", say());
        } else if self.failed == 11 {
            println!("(more differences are counted, not printed)");
        }
    }

    /// Put one call to both sides and compare.
    fn compare(&mut self, call: &Call) {
        let (mut ours, mut theirs) = (call.clone(), call.clone());
        if self.trace {
            println!("{call}");
        }
        let expected = reference::answer(&mut ours);
        let answer = library::answer(&mut theirs);
        let number = (expected >> 56) as u8;
        *self.answers.entry((call.ask, number)).or_default() += 1;
        if call.ask == Ask::Judge && number == 0 {
            *(if expected == 0 { &mut self.sound } else { &mut self.miss }) += 1;
        }
        let same = answer == expected
            && theirs == Call { pattern: theirs.pattern.clone(), ..ours.clone() }
            && reference::serves(&ours, expected, &theirs.pattern);
        self.check(same, || {
            format!("{call}\n  expected {} {ours}\n  answered {} {theirs}", shown(expected), shown(answer))
        });
    }
}

fn shown(answer: u64) -> String {
    let (number, rest) = (answer >> 56, answer & ((1 << 56) - 1));
    if number == 0 { format!("[{rest}]") } else { format!("[refused {number} at {rest}]") }
}

/// Ask everything about a table, and some of it again with one or more refusals called down on it.
fn try_table(count: &mut Count, dice: &Dice, table: &[u32], k: u32) {
    for mut call in asks(dice, table, k) {
        count.compare(&call);
        if call.ask != Ask::Read && dice.one_in(4) {
            // The row count first, then the rows, then a stray word; the rest goes by the table's final n.
            for number in [2, 3, 1, 4, 5, 6, 7, 8, 9, 28] {
                if call.ask.refusals().contains(&number) && dice.one_in(4) {
                    spoil(dice, &mut call, number);
                }
            }
            count.compare(&call);
        }
    }
}

fn tables(count: &mut Count, dice: &Dice) {
    for _ in 0..SMALL_TABLES {
        let n = dice.below(6);
        let k = dice.within(0, if n <= 2 && dice.one_in(4) { 8 } else { 3 });
        let table = small_table(dice, n);
        try_table(count, dice, &table, k);
    }
    for _ in 0..MIDDLE_TABLES {
        let (n, k) = (dice.within(6, 10) as usize, dice.within(0, 2));
        let table = small_table(dice, n);
        try_table(count, dice, &table, k);
    }
    for _ in 0..FULL_TABLES {
        let (n, k) = (dice.pick(&[63, 64, 64]), dice.within(0, 2));
        let table = small_table(dice, n);
        try_table(count, dice, &table, k);
    }
}

/// Tables with too many patterns to try each. Every latest finish is reached by the pattern handed out for that job, and passed under
/// none of many other patterns; their schedules and free slots agree.
fn large_tables(count: &mut Count, dice: &Dice) {
    for _ in 0..LARGE_TABLES {
        let (n, k) = (dice.within(11, 64) as usize, dice.within(3, 8));
        let table = small_table(dice, n);
        let finishes = |pattern: &[u32]| {
            let mut call = Call { pattern: pattern.to_vec(), times: vec![0; n], ..Call::new(Ask::Schedule, &table) };
            reference::answer(&mut call);
            call.times
        };

        let judge = Call { k, times: dice.words(n), pattern: dice.words(n), ..Call::new(Ask::Judge, &table) };
        let mut judged = judge.clone();
        let verdict = library::answer(&mut judged);
        let latest = &judged.times;
        let misses = (0..n).filter(|&job| latest[job] > table[4 * job + 2]);
        let named = misses.min_by_key(|&job| (table[4 * job + 2], job));
        count.check(verdict == named.map_or(0, |job| 1 + job as u64), || judge.to_string());

        for job in 0..n {
            let call = Call { k, job: job as u32, pattern: dice.words(n), ..Call::new(Ask::Pattern, &table) };
            let mut handed_out = call.clone();
            let reached = library::answer(&mut handed_out) == 0
                && handed_out.pattern.iter().map(|&f| f as u64).sum::<u64>() <= k as u64
                && finishes(&handed_out.pattern)[job] == latest[job];
            count.check(reached, || format!("not reached: {call}"));
        }
        for _ in 0..100 {
            let mut pattern = vec![0; n];
            let failing: Vec<usize> = (0..dice.within(1, 4)).map(|_| dice.below(n)).collect();
            for _ in 0..k {
                pattern[dice.pick(&failing)] += 1;
            }
            let passes = finishes(&pattern).iter().zip(latest).any(|(finish, latest)| finish > latest);
            count.check(!passes, || format!("passed under {pattern:?}: {judge}"));
            count.compare(&Call { pattern, times: dice.words(n), ..Call::new(Ask::Schedule, &table) });
            let (a, b) = (dice.within(0, 300), dice.within(0, 900));
            count.compare(&Call { a, b, ..Call::new(Ask::FreeSlots, &table) });
        }
    }
}

/// Words at the ends of their ranges, few enough to go slot by slot.
fn extremes(count: &mut Count, dice: &Dice) {
    for round in 0..EXTREME_TABLES {
        let mut table = vec![];
        for _ in 0..1 + round % 2 {
            let r = dice.pick(&[0, 999_999, 1_000_000]);
            let (c, v) = (dice.pick(&[1, 99_999, 100_000]), dice.pick(&[0, 1, 99_999, 100_000]));
            let d = dice.pick(&[0, r + c + 8 * v - 1, r + c + 8 * v, r + c + 3 * v, 9_999_999, 10_000_000]);
            table.extend([r, c, d, v]);
        }
        try_table(count, dice, &table, if table.len() == 4 { 8 } else { dice.within(1, 3) });
    }

    // The greatest finish there is, 8,200,000, and the free slots up to the latest time.
    let full = [1_000_000, 100_000, 10_000_000, 100_000].repeat(64);
    let mut pattern = vec![0; 64];
    (pattern[0], pattern[63]) = (3, 5);
    count.compare(&Call { pattern, times: dice.words(64), ..Call::new(Ask::Schedule, &full) });
    count.compare(&Call { a: 0, b: 10_000_000, ..Call::new(Ask::FreeSlots, &full) });
    count.compare(&Call { a: 0, b: 10_000_000, ..Call::new(Ask::FreeSlots, &[]) });
    count.compare(&Call { a: 10_000_000, b: 10_000_000, ..Call::new(Ask::FreeSlots, &full[..4]) });
    count.compare(&Call { a: 9_999_999, b: 10_000_000, ..Call::new(Ask::FreeSlots, &full[..4]) });
}

/// A random file, every second one damaged.
fn some_file(dice: &Dice) -> Vec<u8> {
    let mut file = random_file(dice);
    if dice.one_in(2) {
        for _ in 0..dice.within(1, 3) {
            damage(dice, &mut file);
        }
    }
    file
}

fn files(count: &mut Count, dice: &Dice) {
    for _ in 0..FILES {
        let file = some_file(dice);
        let words = 4 * (file.len() / 20);
        let room = dice.pick(&[0, words.saturating_sub(1), words, words, words, words + 1, 256, 300]);
        count.compare(&Call { file, ..Call::new(Ask::Read, &dice.words(room)) });
    }
}

/// Written, read and written again, through the library alone: the table and k come back, and the same bytes.
fn round_trips(count: &mut Count, dice: &Dice) {
    for _ in 0..1_000 {
        let (n, k) = (dice.below(65), dice.within(0, 8));
        let table = small_table(dice, n);
        let length = 5 + 20 * n;
        let mut write = Call { k, file: dice.bytes(length), ..Call::new(Ask::Write, &table) };
        let mut passed = library::answer(&mut write) == length as u64;
        let mut read = Call { file: write.file.clone(), ..Call::new(Ask::Read, &dice.words(4 * n)) };
        passed &= library::answer(&mut read) == (256 * k as usize + n) as u64 && read.table == table;
        let mut again = Call { k, file: dice.bytes(length), ..Call::new(Ask::Write, &read.table) };
        passed &= library::answer(&mut again) == length as u64 && again.file == write.file;
        count.check(passed, || format!("round trip of {}", Call { k, ..Call::new(Ask::Write, &table) }));
    }
}

/// The rewriting program on random files: what it writes, and that rewriting this again changes nothing where it is a file.
fn rewritings(count: &mut Count, dice: &Dice) {
    let (mut headed, mut headless, mut refused) = (0, 0, 0);
    for _ in 0..REWRITTEN {
        let file = some_file(dice);
        let expected = reference::rewritten(&file);
        let written = program::run("rewrite", &file);
        count.check(written == expected, || format!("rewrite {file:?}\n  expected {expected:?}\n  written {written:?}"));
        if expected.starts_with(b"refused ") {
            refused += 1;
            continue;
        }
        *(if expected == file { &mut headed } else { &mut headless }) += 1;
        let again = program::run("rewrite", &written);
        count.check(again == expected, || format!("rewrite {file:?} twice\n  written {again:?}"));
    }
    println!("rewrite    headed {headed}, without a head {headless}, refused {refused}");
    count.check(headed.min(headless).min(refused) >= 100, || "one kind of file hardly came up".to_string());
}

/// Every refusal of every ask must have come up, and both verdicts.
fn coverage(count: &mut Count) {
    for ask in Ask::ALL {
        let of = |number: u8| count.answers.get(&(ask, number)).copied().unwrap_or(0);
        let mut line = format!("{:<10} answered {:>7}, refused", ask.name(), of(0));
        let mut least = of(0);
        for &number in ask.refusals() {
            line += &format!("  {number}: {}", of(number));
            least = least.min(of(number));
        }
        println!("{line}");
        count.check(least >= 50, || format!("{}: a refusal came up only {least} times", ask.name()));
    }
    println!("judge      sound {}, miss {}", count.sound, count.miss);
    count.check(count.sound.min(count.miss) >= 1_000, || "one of the verdicts hardly came up".to_string());
}

fn main() {
    let words: Vec<String> = std::env::args().skip(1).collect();
    let words: Vec<&str> = words.iter().map(String::as_str).collect();
    let mut count = Count::default();
    let seed = match words[..] {
        ["replay", ref call @ ..] => {
            let mut call = Call::parse(&call.join(" ")).unwrap_or_else(|| usage());
            let n = call.n() as u64;
            if n <= 64 && call.k <= 8 && (1..=call.k as u64).fold(1, |patterns, i| patterns * (n + i) / i) > 10_000_000 {
                println!("too many patterns to try each; the library says");
                println!("{} {call}", shown(library::answer(&mut call)));
                exit(0);
            }
            count.compare(&call);
            finish(count);
        }
        ["trace", seed] => {
            count.trace = true;
            seed.parse().unwrap_or_else(|_| usage())
        }
        [seed] => seed.parse().unwrap_or_else(|_| usage()),
        [] => SEED,
        _ => usage(),
    };

    println!("seed {seed}");
    let start = Instant::now();
    let dice = &Dice::new(seed);
    worked::cases(reference::answer, &mut |case, passed| count.check(passed, || format!("case {case}, the reference")));
    worked::cases(library::answer, &mut |case, passed| count.check(passed, || format!("case {case}")));
    worked::case_17(library::answer, &mut |case, passed| count.check(passed, || format!("case {case}")));
    tables(&mut count, dice);
    large_tables(&mut count, dice);
    extremes(&mut count, dice);
    files(&mut count, dice);
    round_trips(&mut count, dice);
    rewritings(&mut count, dice);
    coverage(&mut count);
    println!("{} s (meant to take at most about a minute; a slower machine only takes longer)", start.elapsed().as_secs());
    finish(count);
}

fn usage() -> ! {
    eprintln!("usage: second [SEED] | second trace SEED | second replay CALL");
    exit(2);
}

fn finish(count: Count) -> ! {
    println!("{} passed, {} failed", count.passed, count.failed);
    exit(if count.failed == 0 { 0 } else { 1 });
}
