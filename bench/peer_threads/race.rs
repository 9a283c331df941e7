//! A race: actors in separate threads on one shared keeper, and the replies of each. Orders and times
//! read one counter, which is shared: times read it without the lock.
use crate::clocks::{Command, Refusal};
use crate::desk::{nanosecond_counter, STEP};
use crate::notice::monotonic;
use crate::shared::{weighed, Caller, Counter, Locked, SharedKeeper};
use crate::turns::{Effort, Turn};
use std::hint::black_box;
use std::sync::atomic::{AtomicU64, Ordering};
use std::thread;
use std::time::Instant;

const ACTORS: usize = 4;
const ORDERS: u64 = 100_000;

#[derive(Clone, Copy)]
#[allow(dead_code)]
enum Action {
    Order(Command),
    Look,
    Glance,
    /// MONOTONIC.
    Now,
}

#[derive(Clone, Copy)]
#[allow(dead_code)]
enum Reply {
    Done(u64),
    Refused(Refusal),
    Saw(u64),
    Glanced(u64),
    Moved { first: u64, last: u64 },
    Timed { front: u64, time: (u64, u64) },
}

/// A counter that each read moves on.
struct SharedTicker {
    next: AtomicU64,
}

impl SharedTicker {
    fn read(&self) -> u64 {
        self.next.fetch_add(STEP, Ordering::SeqCst)
    }
}

impl Counter for &SharedTicker {
    fn read(&mut self) -> u64 {
        SharedTicker::read(self)
    }
}

type RaceKeeper<'c> = SharedKeeper<&'c SharedTicker>;

fn replied(
    keeper: &RaceKeeper,
    counter: &SharedTicker,
    caller: &mut Caller,
    action: Action,
) -> Reply {
    match action {
        Action::Order(cmd) => match keeper.command(caller, cmd) {
            Ok(number) => Reply::Done(number),
            Err(refusal) => Reply::Refused(refusal),
        },
        Action::Look => Reply::Saw(keeper.read(caller)[0]),
        Action::Glance => match keeper.fast_read(caller) {
            Ok(words) => Reply::Glanced(words[0]),
            Err((first, last)) => Reply::Moved { first, last },
        },
        Action::Now => {
            let (words, reading) = keeper.notice.read_between(&keeper.page, || counter.read());
            let desc = nanosecond_counter();
            let time = monotonic(&words, &desc, reading & desc.mask());
            Reply::Timed {
                front: words[0],
                time,
            }
        }
    }
}

fn orders(actors: &[Vec<Action>]) -> usize {
    let is_order = |action: &&Action| matches!(action, Action::Order(_));
    actors
        .iter()
        .map(|a| a.iter().filter(is_order).count())
        .sum()
}

fn race<'c>(
    counter: &'c SharedTicker,
    actors: &[Vec<Action>],
) -> (Locked<&'c SharedTicker>, Vec<Vec<Reply>>) {
    let (keeper, mut callers) = SharedKeeper::opened(counter, actors.len() as u32, orders(actors));
    let keeper = Box::new(keeper);
    let shared = &*keeper;
    let replies = thread::scope(|scope| {
        let started: Vec<_> = actors
            .iter()
            .zip(callers.iter_mut())
            .map(|(actions, caller)| {
                let mut replies = Vec::with_capacity(actions.len());
                scope.spawn(move || {
                    for action in actions {
                        replies.push(replied(shared, counter, caller, *action));
                    }
                    replies
                })
            })
            .collect();
        started.into_iter().map(|one| one.join().unwrap()).collect()
    });
    (keeper.close(), replies)
}

/// Times a race, including the opening and the closing of its keeper.
pub fn four_actors(effort: Effort) -> Turn {
    let orders = effort.of(ORDERS) as usize;
    let actors = vec![vec![Action::Order(Command::Update); orders]; ACTORS];
    let counter = SharedTicker {
        next: AtomicU64::new(0),
    };
    let start = Instant::now();
    let (locked, replies) = race(&counter, black_box(&actors));
    let time = start.elapsed();
    black_box(replies);
    Turn {
        time,
        count: locked.count(),
        check: weighed(&locked.words()),
    }
}
