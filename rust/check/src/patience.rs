// SPDX-License-Identifier: Apache-2.0
//! Limits that are not of the clock: on a busy machine all is slow, and nothing is wrong.
//!
//! Spent are the processor time of the processes that a reply depends on, and each pause after which none of them runs or wants to. A process
//! that gets no processor spends nothing.
use std::collections::HashMap;
use std::fs::{read_dir, read_to_string};
use std::thread::sleep;
use std::time::Duration;

/// How long lies between two looks.
const PAUSE: Duration = Duration::from_millis(2);
/// How often nothing has moved before a process is called idle.
const IDLE_LOOKS: u32 = 5;
/// How many looks at most: what polls is never idle.
const MOST_LOOKS: u32 = 200;

/// A process and all below it.
pub fn family(process: i32) -> Vec<i32> {
    let mut found = vec![process];
    let mut next = 0;
    while let Some(parent) = found.get(next).copied() {
        next += 1;
        let below = threads_of(parent).filter_map(|it| read_to_string(format!("/proc/{parent}/task/{it}/children")).ok());
        let children: Vec<i32> =
            below.flat_map(|it| it.split_whitespace().filter_map(|it| it.parse().ok()).collect::<Vec<_>>()).collect();
        found.extend(children);
    }
    found
}

fn threads_of(process: i32) -> impl Iterator<Item = i32> {
    let entries = read_dir(format!("/proc/{process}/task")).into_iter().flatten().flatten();
    entries.filter_map(|it| it.file_name().to_str()?.parse().ok())
}

/// The state of a process or a thread: a letter, by which R runs and Z has ended.
fn state_of(folder: &str) -> Option<char> {
    let text = read_to_string(format!("{folder}/stat")).ok()?;
    text[text.rfind(')')? + 1..].trim_start().chars().next()
}

/// Whether there is a process of this number which has not ended.
pub fn is_alive(process: i32) -> bool {
    !matches!(state_of(&format!("/proc/{process}")), None | Some('Z' | 'X'))
}

/// How many nanoseconds of a processor each thread of some processes has used, and whether one of them runs or waits for a disk.
fn work_of(processes: &[i32]) -> (HashMap<i32, u64>, bool) {
    let mut used = HashMap::new();
    let mut wants = false;
    for process in processes {
        for thread in threads_of(*process) {
            let folder = format!("/proc/{process}/task/{thread}");
            let time = read_to_string(format!("{folder}/schedstat")).ok();
            used.insert(thread, time.and_then(|it| it.split(' ').next()?.parse().ok()).unwrap_or(0));
            wants = wants || matches!(state_of(&folder), Some('R' | 'D'));
        }
    }
    (used, wants)
}

/// How much more the threads have used than before.
fn growth(before: &HashMap<i32, u64>, now: &HashMap<i32, u64>) -> Duration {
    let more = now.iter().map(|(thread, used)| used.saturating_sub(before.get(thread).copied().unwrap_or(0))).sum();
    Duration::from_nanos(more)
}

/// A limit, which a process and all below it spend.
pub struct Patience {
    process: Option<i32>,
    left: Duration,
    seen: Option<HashMap<i32, u64>>,
}

impl Patience {
    pub fn new(process: Option<i32>, limit: Duration) -> Self {
        Patience { process, left: limit, seen: None }
    }

    /// A pause of such a length is over: whether there is still patience.
    pub fn spend(&mut self, pause: Duration) -> bool {
        let spent = match self.process {
            None => pause,
            Some(process) => self.spent_by(&family(process), pause),
        };
        self.left = self.left.saturating_sub(spent);
        self.left > Duration::ZERO
    }

    fn spent_by(&mut self, processes: &[i32], pause: Duration) -> Duration {
        let (now, wants) = work_of(processes);
        let worked = self.seen.as_ref().map_or(Duration::ZERO, |before| growth(before, &now));
        self.seen = Some(now);
        match worked.is_zero() && !wants {
            true => pause,
            false => worked,
        }
    }

    /// Waits until something holds: whether it does.
    pub fn wait_until(&mut self, mut holds: impl FnMut() -> bool) -> bool {
        loop {
            if holds() {
                return true;
            }
            sleep(PAUSE);
            if !self.spend(PAUSE) {
                return holds();
            }
        }
    }
}

/// Waits until a process has done what it was about to do: it neither runs nor wants to for a while.
pub fn settle(process: Option<i32>) {
    let processes = match process {
        Some(process) => family(process),
        None => return sleep(PAUSE * IDLE_LOOKS * 8),
    };
    let (mut before, mut idle) = (work_of(&processes).0, 0);
    for _ in 0..MOST_LOOKS {
        sleep(PAUSE);
        let (now, wants) = work_of(&processes);
        idle = if wants || !growth(&before, &now).is_zero() { 0 } else { idle + 1 };
        before = now;
        if idle == IDLE_LOOKS {
            return;
        }
    }
}
