//! The same answers in plain safe Rust: the event schedule, the walk, the paper's algorithm Exact, and every pattern.

use std::cmp::Reverse;
use std::collections::BinaryHeap;

pub const MOST_JOBS: usize = 64;
pub const MOST_FAULTS: usize = 8;

#[derive(Clone, Copy)]
pub struct Job {
    pub ready: u32,
    pub run: u32,
    pub deadline: u32,
    pub recovery: u32,
}

/// Does job i come before job j where both wait?
fn more_urgent(jobs: &[Job], i: usize, j: usize) -> bool {
    (jobs[i].deadline, i) < (jobs[j].deadline, j)
}

/// The finishes under a pattern, from event to event: the most urgent waiting job runs until it ends or the next job becomes ready.
pub fn schedule(jobs: &[Job], pattern: &[u32], finishes: &mut [u32]) {
    let mut left = [0; MOST_JOBS];
    for (i, job) in jobs.iter().enumerate() {
        left[i] = job.run + pattern[i] * job.recovery;
    }
    let mut unfinished = jobs.len();
    let mut now = 0;
    while unfinished > 0 {
        // Jobs come in the order of their numbers, so of equal deadlines the first one found stays.
        let mut running = None;
        let mut earliest = u32::MAX;
        let mut next_ready = u32::MAX;
        for (i, (job, &left)) in jobs.iter().zip(&left).enumerate() {
            if left == 0 {
                continue;
            }
            if job.ready > now {
                next_ready = next_ready.min(job.ready);
            } else if job.deadline < earliest {
                earliest = job.deadline;
                running = Some(i);
            }
        }
        let Some(i) = running else {
            now = next_ready;
            continue;
        };
        let slots = left[i].min(next_ready - now);
        now += slots;
        left[i] -= slots;
        if left[i] == 0 {
            finishes[i] = now;
            unfinished -= 1;
        }
    }
}

/// The latest finish of the judged job. `by_ready` has all jobs in the order of their ready times; those at least as urgent as the
/// judged one are walked. Entry w of the row is the latest end of their work with at most w faults. After the judged job only an end
/// past the next ready time goes on; any other means that the judged job has ended, and is marked 0.
fn latest_finish(jobs: &[Job], by_ready: &[usize], judged: usize, k: usize) -> u32 {
    let mut row = [0; MOST_FAULTS + 1];
    let mut judged_is_in = false;
    for &i in by_ready {
        if i != judged && !more_urgent(jobs, i, judged) {
            continue;
        }
        let job = &jobs[i];
        if judged_is_in && row[k] <= job.ready {
            break;
        }
        let mut one_less = 0;
        for end in &mut row[..=k] {
            let calm = if !judged_is_in {
                (*end).max(job.ready) + job.run
            } else if *end > job.ready {
                *end + job.run
            } else {
                0
            };
            let faulty = if one_less == 0 { 0 } else { one_less + job.recovery };
            *end = calm.max(faulty);
            one_less = *end;
        }
        judged_is_in |= i == judged;
    }
    row[k]
}

/// The latest finishes by one walk for each job, and the most urgent job that misses.
pub fn judge(jobs: &[Job], k: usize, latest: &mut [u32]) -> Option<usize> {
    let mut order = [0; MOST_JOBS];
    let by_ready = &mut order[..jobs.len()];
    by_ready.iter_mut().enumerate().for_each(|(i, place)| *place = i);
    by_ready.sort_unstable_by_key(|&i| jobs[i].ready);
    let mut named = None;
    for i in 0..jobs.len() {
        latest[i] = latest_finish(jobs, by_ready, i, k);
        if latest[i] > jobs[i].deadline && named.is_none_or(|j| more_urgent(jobs, i, j)) {
            named = Some(i);
        }
    }
    named
}

/// One job's fault-free finish, with the free slots before it.
struct Ended {
    rank: usize,
    finish: u32,
    free: u32,
}

/// The schedule without faults of jobs in the order of urgency, by a heap of waiting ranks, as the paper has it. The jobs come in the
/// order of their finishes.
fn without_faults(by_urgency: &[Job]) -> Vec<Ended> {
    let mut coming: Vec<usize> = (0..by_urgency.len()).collect();
    coming.sort_unstable_by_key(|&rank| Reverse(by_urgency[rank].ready));
    let mut left: Vec<u32> = by_urgency.iter().map(|job| job.run).collect();
    let mut waiting = BinaryHeap::new();
    let mut ended = Vec::with_capacity(by_urgency.len());
    let (mut now, mut free) = (0, 0);
    loop {
        while let Some(&rank) = coming.last().filter(|&&rank| by_urgency[rank].ready <= now) {
            waiting.push(Reverse(rank));
            coming.pop();
        }
        let next_ready = coming.last().map(|&rank| by_urgency[rank].ready);
        match (waiting.peek(), next_ready) {
            (None, None) => return ended,
            (None, Some(ready)) => {
                free += ready - now;
                now = ready;
            }
            (Some(&Reverse(rank)), _) => {
                let slots = next_ready.map_or(left[rank], |ready| left[rank].min(ready - now));
                now += slots;
                left[rank] -= slots;
                if left[rank] == 0 {
                    waiting.pop();
                    ended.push(Ended { rank, finish: now, free });
                }
            }
        }
    }
}

/// The paper's algorithm Exact: for each set of the j most urgent jobs, the delays by formula (6), and whether the delay of k faults is
/// used up anywhere from the least urgent job's finish to its deadline. With the test that step 5 takes for granted: a fault-free
/// finish after the deadline is a miss. It gives the verdict alone.
pub fn exact(jobs: &[Job], k: usize) -> bool {
    let mut by_urgency = jobs.to_vec();
    by_urgency.sort_by_key(|job| job.deadline);
    (1..=jobs.len()).all(|j| least_urgent_in_time(&by_urgency[..j], k))
}

fn least_urgent_in_time(by_urgency: &[Job], k: usize) -> bool {
    let least_urgent = by_urgency.len() - 1;
    let deadline = by_urgency[least_urgent].deadline;
    let ended = without_faults(by_urgency);
    let last = &ended[least_urgent];
    if last.finish > deadline {
        return false;
    }
    let free_at_deadline = last.free + (deadline - last.finish);
    let mut delays = [0u32; MOST_FAULTS + 1];
    let mut free = 0;
    let mut is_in = false;
    for (i, job) in ended.iter().enumerate() {
        let recovery = by_urgency[job.rank].recovery;
        for w in 1..=k {
            delays[w] = delays[w].saturating_sub(job.free - free).max(delays[w - 1] + recovery);
        }
        free = job.free;
        is_in |= job.rank == least_urgent;
        let next_free = ended.get(i + 1).map_or(free_at_deadline, |next| next.free);
        if is_in && delays[k] <= next_free - free {
            return true;
        }
    }
    false
}

/// Every pattern of at most k faults, each by the event schedule; the latest finishes.
pub fn every_pattern(jobs: &[Job], k: u32, latest: &mut [u32]) {
    fn from(jobs: &[Job], i: usize, k: u32, pattern: &mut [u32], finishes: &mut [u32], latest: &mut [u32]) {
        if i == jobs.len() {
            schedule(jobs, pattern, finishes);
            for (best, &finish) in latest.iter_mut().zip(&*finishes) {
                *best = finish.max(*best);
            }
            return;
        }
        for f in 0..=k {
            pattern[i] = f;
            from(jobs, i + 1, k - f, pattern, finishes, latest);
        }
        pattern[i] = 0;
    }
    latest.fill(0);
    from(jobs, 0, k, &mut [0; MOST_JOBS][..jobs.len()], &mut [0; MOST_JOBS][..jobs.len()], latest)
}
