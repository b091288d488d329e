//! Every ask a second time, as plainly as the definition says it: slot by slot, and for a latest finish every pattern.

use crate::call::{Ask, Call};

/// A refusal: its number and its place.
type Refusal = (u8, usize);

struct Job {
    ready: u32,
    run: u32,
    deadline: u32,
    recovery: u32,
}

fn jobs(table: &[u32]) -> Vec<Job> {
    table.chunks(4).map(|row| Job { ready: row[0], run: row[1], deadline: row[2], recovery: row[3] }).collect()
}

struct Schedule {
    finishes: Vec<u32>,
    /// For each slot before the last finish, whether it is idle. All later slots are.
    idle: Vec<bool>,
}

/// The most urgent waiting job runs in slot t. It waits if it is ready and has had fewer slots than it needs.
fn schedule(jobs: &[Job], pattern: &[u32]) -> Schedule {
    let needs: Vec<u32> = jobs.iter().zip(pattern).map(|(job, f)| job.run + f * job.recovery).collect();
    let mut had = vec![0; jobs.len()];
    let mut finishes = vec![0; jobs.len()];
    let mut idle = vec![];
    let mut unfinished = jobs.len();
    let mut t = 0;
    while unfinished > 0 {
        let waiting = (0..jobs.len()).filter(|&i| jobs[i].ready <= t && had[i] < needs[i]);
        let running = waiting.min_by_key(|&i| (jobs[i].deadline, i));
        idle.push(running.is_none());
        if let Some(i) = running {
            had[i] += 1;
            if had[i] == needs[i] {
                finishes[i] = t + 1;
                unfinished -= 1;
            }
        }
        t += 1;
    }
    Schedule { finishes, idle }
}

fn without_faults(jobs: &[Job]) -> Schedule {
    schedule(jobs, &vec![0; jobs.len()])
}

/// All patterns of n counts whose sum is at most k.
fn patterns(n: usize, k: u32) -> Vec<Vec<u32>> {
    if n == 0 {
        return vec![vec![]];
    }
    let mut all = vec![];
    for last in 0..=k {
        for mut pattern in patterns(n - 1, k - last) {
            pattern.push(last);
            all.push(pattern);
        }
    }
    all
}

/// For each job the greatest finish over all patterns, and a pattern that reaches it.
fn latest(jobs: &[Job], k: u32) -> Vec<(u32, Vec<u32>)> {
    let mut latest = vec![(0, vec![]); jobs.len()];
    for pattern in patterns(jobs.len(), k) {
        let finishes = schedule(jobs, &pattern).finishes;
        for (best, finish) in latest.iter_mut().zip(finishes) {
            if finish > best.0 {
                *best = (finish, pattern.clone());
            }
        }
    }
    latest
}

fn free_slots(jobs: &[Job], a: u32, b: u32) -> usize {
    let idle = without_faults(jobs).idle;
    (a..b).filter(|&t| idle.get(t as usize).copied().unwrap_or(true)).count()
}

/// The greatest extra work, over all patterns, just after each job's fault-free finish. Extra work starts at zero, grows by f × V at
/// each fault-free finish, and falls by one, not below zero, with each idle slot of the schedule without faults.
fn delays(jobs: &[Job], k: u32) -> Vec<u32> {
    let calm = without_faults(jobs);
    let mut delays = vec![0; jobs.len()];
    for pattern in patterns(jobs.len(), k) {
        let mut extra = 0u32;
        for t in 0..=calm.idle.len() {
            if let Some(i) = calm.finishes.iter().position(|&finish| finish as usize == t) {
                extra += pattern[i] * jobs[i].recovery;
                delays[i] = delays[i].max(extra);
            }
            if calm.idle.get(t) == Some(&true) {
                extra = extra.saturating_sub(1);
            }
        }
    }
    delays
}

/// The most urgent job with a negative margin.
fn named(jobs: &[Job], latest: &[(u32, Vec<u32>)]) -> Option<usize> {
    (0..jobs.len()).filter(|&i| latest[i].0 > jobs[i].deadline).min_by_key(|&i| (jobs[i].deadline, i))
}

const FIELDS: [std::ops::RangeInclusive<u32>; 4] = [0..=1_000_000, 1..=100_000, 0..=10_000_000, 0..=100_000];

/// The index of the first word outside its range.
fn bad_field(table: &[u32]) -> Option<usize> {
    (0..table.len()).find(|&word| !FIELDS[word % 4].contains(&table[word]))
}

/// k and the rows of a file, or the first refusal met. Without a head k is 2.
fn read(file: &[u8]) -> Result<(u8, Vec<u32>), Refusal> {
    let mut k = 2;
    let mut table = vec![];
    let mut at = 0;
    while at < file.len() {
        let left = &file[at..];
        let number = |i: usize| left[i] as usize + 256 * left[i + 1] as usize;
        refuse_if(left.len() < 2, 20, at)?;
        let length = number(0);
        refuse_if(length < 2, 21, at)?;
        refuse_if(length + 2 > left.len(), 20, at)?;
        let kind = number(2);
        refuse_if(kind != 1 && kind != 2, 22, at)?;
        refuse_if(length != if kind == 1 { 3 } else { 18 }, 21, at)?;
        let body = &left[4..length + 2];
        if kind == 1 {
            refuse_if(at != 0, 23, at)?;
            refuse_if(body[0] > 8, 25, at)?;
            k = body[0];
        } else {
            let row: Vec<u32> = body.chunks(4).map(|word| u32::from_le_bytes(word.try_into().unwrap())).collect();
            refuse_if(table.len() == 4 * 64, 24, at)?;
            refuse_if(bad_field(&row).is_some(), 25, at)?;
            table.extend(row);
        }
        at += length + 2;
    }
    Ok((k, table))
}

/// The file of a table: a head, then the jobs.
pub fn written(table: &[u32], k: u32) -> Vec<u8> {
    let mut file = vec![3, 0, 1, 0, k as u8];
    for row in table.chunks(4) {
        file.extend([18, 0, 2, 0]);
        file.extend(row.iter().flat_map(|word| word.to_le_bytes()));
    }
    file
}

/// What the rewriting program writes for an input. The older cameras' rule was that without a head k is 1.
pub fn rewritten(file: &[u8]) -> Vec<u8> {
    if file.len() > 32_768 {
        return b"too long\n".to_vec();
    }
    match read(file) {
        Err((number, place)) => format!("refused {number} at {place}\n").into_bytes(),
        Ok(_) if file.starts_with(&[3, 0, 1, 0]) => file.to_vec(),
        Ok(_) => [&[3, 0, 1, 0, 1], file].concat(),
    }
}

fn refuse_if(applies: bool, number: u8, place: usize) -> Result<(), Refusal> {
    if applies { Err((number, place)) } else { Ok(()) }
}

/// Refusals 1, 2 and 3, which come first in every ask that is given a table.
fn good_table(table: &[u32]) -> Result<(), Refusal> {
    refuse_if(table.len() % 4 != 0, 1, table.len())?;
    refuse_if(table.len() / 4 > 64, 2, 0)?;
    bad_field(table).map_or(Ok(()), |word| Err((3, word)))
}

/// Fill the buffers of the call; its value, or a refusal.
fn value(call: &mut Call) -> Result<usize, Refusal> {
    if call.ask == Ask::Read {
        let (k, table) = read(&call.file)?;
        refuse_if(call.table.len() < table.len(), 26, call.file.len())?;
        call.table[..table.len()].copy_from_slice(&table);
        return Ok(256 * k as usize + table.len() / 4);
    }
    good_table(&call.table)?;
    let n = call.n();
    let jobs = jobs(&call.table);
    match call.ask {
        Ask::Schedule => {
            refuse_if(call.pattern.len() != n, 6, n)?;
            refuse_if(call.pattern.iter().map(|&f| f as u64).sum::<u64>() > 8, 7, 0)?;
            refuse_if(call.times.len() < n, 5, n)?;
            call.times[..n].copy_from_slice(&schedule(&jobs, &call.pattern).finishes);
            Ok(0)
        }
        Ask::FreeSlots => {
            refuse_if(call.a > 10_000_000 || call.b > 10_000_000, 9, 0)?;
            Ok(free_slots(&jobs, call.a, call.b))
        }
        Ask::Delays => {
            refuse_if(call.k > 8, 4, 0)?;
            refuse_if(call.times.len() < n, 5, n)?;
            call.times[..n].copy_from_slice(&delays(&jobs, call.k));
            Ok(0)
        }
        Ask::Judge => {
            refuse_if(call.k > 8, 4, 0)?;
            refuse_if(call.times.len() < n, 5, n)?;
            refuse_if(call.pattern.len() < n, 6, n)?;
            let latest = latest(&jobs, call.k);
            for i in 0..n {
                call.times[i] = latest[i].0;
            }
            let miss = named(&jobs, &latest);
            call.pattern[..n].copy_from_slice(&miss.map_or(vec![0; n], |job| latest[job].1.clone()));
            Ok(miss.map_or(0, |job| 1 + job))
        }
        Ask::Pattern => {
            refuse_if(call.k > 8, 4, 0)?;
            refuse_if(call.job as usize >= n, 8, 0)?;
            refuse_if(call.pattern.len() < n, 6, n)?;
            call.pattern[..n].copy_from_slice(&latest(&jobs, call.k)[call.job as usize].1);
            Ok(0)
        }
        Ask::Write => {
            refuse_if(call.k > 8, 4, 0)?;
            let file = written(&call.table, call.k);
            refuse_if(call.file.len() < file.len(), 28, file.len())?;
            call.file[..file.len()].copy_from_slice(&file);
            Ok(file.len())
        }
        Ask::Read => unreachable!(),
    }
}

/// The answer to a call, in the form of the C interface; its buffers are filled.
pub fn answer(call: &mut Call) -> u64 {
    match value(call) {
        Ok(value) => value as u64,
        Err((number, place)) => (number as u64) << 56 | place as u64,
    }
}

/// The one freedom: of several patterns that reach the same finish any may be handed out. Given the call as answered here and the
/// pattern handed out there: does that pattern serve as well?
pub fn serves(call: &Call, answer: u64, handed_out: &[u32]) -> bool {
    let n = call.n();
    let job = match call.ask {
        Ask::Judge if (1..=64).contains(&answer) => answer as usize - 1,
        Ask::Pattern if answer == 0 => call.job as usize,
        _ => return handed_out == call.pattern,
    };
    let jobs = jobs(&call.table);
    let finish = |pattern: &[u32]| schedule(&jobs, pattern).finishes[job];
    handed_out.len() == call.pattern.len()
        && handed_out[n..] == call.pattern[n..]
        && handed_out[..n].iter().map(|&f| f as u64).sum::<u64>() <= call.k as u64
        && finish(&handed_out[..n]) == finish(&call.pattern[..n])
}
