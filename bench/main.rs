//! Times, in one run and on the same tables: the library's judge and schedule through the C interface, the same in plain safe Rust,
//! the paper's algorithm Exact, and every pattern tried where that can finish.
//!
//! Each time is processor time per call, the best of several rounds. Buffers are lent again as they are, never cleared between calls. All tables are
//! sound, so that Exact, which stops at the first miss, goes through all its sets. Before anything is timed, all answers are compared.

mod plain;

use plain::{Job, MOST_JOBS};
use std::array::from_fn;
use std::hint::black_box;

extern "C" {
    fn carolwindow_schedule(
        table: *const u32, table_length: usize, pattern: *const u32, pattern_length: usize, finishes: *mut u32, finishes_length: usize,
    ) -> u64;
    fn carolwindow_judge(
        table: *const u32, table_length: usize, k: u32, finishes: *mut u32, finishes_length: usize, pattern: *mut u32,
        pattern_length: usize,
    ) -> u64;
}

fn library_schedule(table: &[u32], pattern: &[u32], finishes: &mut [u32]) -> u64 {
    // Safe: each pointer is good for its length.
    unsafe {
        carolwindow_schedule(table.as_ptr(), table.len(), pattern.as_ptr(), pattern.len(), finishes.as_mut_ptr(), finishes.len())
    }
}

fn library_judge(table: &[u32], k: u32, finishes: &mut [u32], pattern: &mut [u32]) -> u64 {
    // Safe: each pointer is good for its length.
    unsafe {
        carolwindow_judge(
            table.as_ptr(), table.len(), k, finishes.as_mut_ptr(), finishes.len(), pattern.as_mut_ptr(), pattern.len(),
        )
    }
}

const SIZES: [usize; 4] = [8, 16, 32, 64];
const FAULTS: [u32; 3] = [0, 2, 8];
const TABLES: usize = 8;
const MOST_PATTERNS: u64 = 1_000_000;

/// Tables of n jobs of about ten slots. `spread`: ready over a frame that is half free, so that walks end early. Otherwise all are
/// ready within ten slots, and every walk goes over all jobs that are more urgent.
fn tables(n: usize, spread: bool) -> Vec<Vec<u32>> {
    let mut state = n as u64;
    let mut below = |end: u64| {
        state = state.wrapping_mul(6_364_136_223_846_793_005).wrapping_add(1_442_695_040_888_963_407);
        ((state >> 33) % end) as u32
    };
    let frame = if spread { 20 * n as u64 } else { 10 };
    (0..TABLES).map(|_| (0..n).flat_map(|_| [below(frame), 1 + below(19), 9_000_000 + below(1000), below(20)]).collect()).collect()
}

fn jobs(table: &[u32]) -> Vec<Job> {
    table.chunks(4).map(|row| Job { ready: row[0], run: row[1], deadline: row[2], recovery: row[3] }).collect()
}

/// How many patterns of n counts sum to at most k: (n + k) over k.
fn patterns(n: usize, k: u32) -> u64 {
    (1..=k as u64).fold(1, |count, i| count * (n as u64 + i) / i)
}

/// The processor time of this program so far, in nanoseconds: other programs on the machine do not count.
fn clock() -> f64 {
    #[repr(C)]
    struct Timespec {
        seconds: i64,
        nanoseconds: i64,
    }
    extern "C" {
        fn clock_gettime(clock: i32, time: *mut Timespec) -> i32;
    }
    const PROCESS_TIME: i32 = 2;
    let mut time = Timespec { seconds: 0, nanoseconds: 0 };
    // Safe: the pointer is good, and Linux on 64 bits has this layout.
    assert_eq!(unsafe { clock_gettime(PROCESS_TIME, &mut time) }, 0);
    time.seconds as f64 * 1e9 + time.nanoseconds as f64
}

/// Nanoseconds for one call of each work, which makes `calls` of them: the best of twelve rounds of at least 2 ms. The works take
/// turns, so that a slow stretch of the machine does not fall on one of them alone.
fn times<const N: usize>(calls: usize, works: [&mut dyn FnMut(); N]) -> [f64; N] {
    let mut round = |i: usize, repeats: u32| {
        let start = clock();
        (0..repeats).for_each(|_| works[i]());
        clock() - start
    };
    let repeats: [u32; N] = from_fn(|i| {
        let mut repeats = 1;
        while round(i, repeats) < 2e6 {
            repeats *= 2;
        }
        repeats
    });
    let mut best = [f64::INFINITY; N];
    for _ in 0..12 {
        best = from_fn(|i| best[i].min(round(i, repeats[i])));
    }
    from_fn(|i| best[i] / (repeats[i] as usize * calls) as f64)
}

/// All answers agree, or the times mean nothing.
fn compare(table: &[u32], k: u32) {
    let (jobs, n) = (jobs(table), table.len() / 4);
    let (mut ours, mut theirs, mut pattern) = (vec![0; n], vec![0; n], vec![0; n]);
    let verdict = library_judge(table, k, &mut ours, &mut pattern);
    let named = plain::judge(&jobs, k as usize, &mut theirs);
    assert_eq!((verdict, &ours), (named.map_or(0, |job| 1 + job as u64), &theirs), "judge: {table:?}, k {k}");
    assert_eq!(verdict == 0, plain::exact(&jobs, k as usize), "Exact: {table:?}, k {k}");
    if patterns(n, k) <= 10_000 {
        plain::every_pattern(&jobs, k, &mut theirs);
        assert_eq!(ours, theirs, "every pattern: {table:?}, k {k}");
    }
    pattern.fill(0);
    pattern[0] = k;
    assert_eq!(library_schedule(table, &pattern, &mut ours), 0);
    plain::schedule(&jobs, &pattern, &mut theirs);
    assert_eq!(ours, theirs, "schedule: {table:?}, k {k}");
}

/// The times of one row, in nanoseconds: library and plain judge, Exact, every pattern, library and plain schedule.
struct Row {
    k: u32,
    n: usize,
    times: [Option<f64>; 6],
}

fn measure(n: usize, k: u32, spread: bool) -> Row {
    let tables = tables(n, spread);
    tables.iter().for_each(|table| compare(table, k));
    let lists: Vec<Vec<Job>> = tables.iter().map(|table| jobs(table)).collect();
    let mut pattern = vec![0; n];
    pattern[0] = k;
    let [mut a, mut b, mut c, mut d, mut e, mut room] = [[0; MOST_JOBS]; 6];
    let [judge, plain_judge, exact, schedule, plain_schedule] = times(
        TABLES,
        [
            &mut || tables.iter().for_each(|table| { black_box(library_judge(black_box(table), k, &mut a[..n], &mut room[..n])); }),
            &mut || lists.iter().for_each(|jobs| { black_box(plain::judge(black_box(jobs), k as usize, &mut b[..n])); }),
            &mut || lists.iter().for_each(|jobs| { black_box(plain::exact(black_box(jobs), k as usize)); }),
            &mut || tables.iter().for_each(|table| { black_box(library_schedule(black_box(table), &pattern, &mut c[..n])); }),
            &mut || lists.iter().for_each(|jobs| plain::schedule(black_box(jobs), &pattern, black_box(&mut d[..n]))),
        ],
    );
    // One table, and once where that already takes long.
    let mut every = || plain::every_pattern(black_box(&lists[0]), k, black_box(&mut e[..n]));
    let every_pattern = (patterns(n, k) <= MOST_PATTERNS).then(|| {
        let start = clock();
        every();
        let once = clock() - start;
        if once > 4e6 { once } else { times(1, [&mut every])[0] }
    });
    let times = [Some(judge), Some(plain_judge), Some(exact), every_pattern, Some(schedule), Some(plain_schedule)];
    Row { k, n, times }
}

fn shown(nanoseconds: Option<f64>) -> String {
    match nanoseconds {
        None => "-".to_string(),
        Some(ns) if ns < 1e4 => format!("{ns:.0} ns"),
        Some(ns) if ns < 1e7 => format!("{:.1} us", ns / 1e3),
        Some(ns) => format!("{:.1} ms", ns / 1e6),
    }
}

fn ratio(of: Option<f64>, to: Option<f64>) -> String {
    of.zip(to).map_or("-".to_string(), |(of, to)| format!("{:.2}", of / to))
}

fn main() {
    for (spread, title) in [(true, "ready times spread over a frame that is half free"), (false, "all jobs ready within ten slots")] {
        let rows: Vec<Row> = FAULTS.iter().flat_map(|&k| SIZES.map(|n| measure(n, k, spread))).collect();

        println!("\n{title}: time per call");
        println!(
            " k  n |{:>11}{:>11}{:>11}{:>13} |{:>11}{:>11}",
            "judge", "plain", "Exact", "patterns", "schedule", "plain"
        );
        for Row { k, n, times } in &rows {
            let [judge, plain, exact, every, schedule, plain_schedule] = times.map(shown);
            println!("{k:>2} {n:>2} |{judge:>11}{plain:>11}{exact:>11}{every:>13} |{schedule:>11}{plain_schedule:>11}");
        }

        println!("ratios: plain over the library's judge, and so on; above 1 the library is faster");
        println!(" k  n |{:>11}{:>11}{:>11}{:>13} |{:>11}{:>11}", "", "plain", "Exact", "patterns", "", "plain");
        for Row { k, n, times } in &rows {
            let to_judge = |i: usize| ratio(times[i], times[0]);
            println!(
                "{k:>2} {n:>2} |{:>11}{:>11}{:>11}{:>13} |{:>11}{:>11}",
                "", to_judge(1), to_judge(2), to_judge(3), "", ratio(times[5], times[4])
            );
        }

        println!("growth: time for n over time for half as many jobs");
        for pair in rows.windows(2).filter(|pair| pair[0].k == pair[1].k) {
            let [judge, plain, exact, every, schedule, plain_schedule] =
                from_fn(|i| ratio(pair[1].times[i], pair[0].times[i]));
            let Row { k, n, .. } = &pair[1];
            println!("{k:>2} {n:>2} |{judge:>11}{plain:>11}{exact:>11}{every:>13} |{schedule:>11}{plain_schedule:>11}");
        }
    }
    println!("\n- : more than {MOST_PATTERNS} patterns, not tried. For n 64 and k 8 there are {}.", patterns(64, 8));
}
