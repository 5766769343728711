//! Histories made to be hard, in any size.

use reference::record::{Event, Operation};

use crate::histories::{stir, History};
use crate::numbers::Numbers;

pub const SHAPES: usize = 14;
pub const LONG_CYCLE: usize = 0;
pub const LONGEST_CYCLE: usize = 11;

/// The shape of that number, in about so many records.
pub fn shape(which: usize, records: usize, numbers: &mut Numbers) -> Vec<Event> {
    let mut events = match which % SHAPES {
        LONG_CYCLE => long_cycle(records, numbers),
        1 => readers_then_a_write(records, numbers),
        2 => all_write_one_variable(records, numbers),
        3 => nothing_in_common(records, numbers),
        4 => monitors(records, numbers),
        5 => joins(records, numbers),
        6 => violation_then_impossible(records, numbers),
        7 => many_transactions(records, numbers),
        8 => locks_held_over_yields(records, numbers),
        9 => two_sections_in_one_transaction(records, numbers),
        10 => layers(records, numbers),
        LONGEST_CYCLE => longest_cycle(records, numbers),
        12 => joins_of_idle_threads(records, numbers),
        _ => forks_of_forks(records, numbers),
    };
    events.truncate(records.max(1));
    events
}

fn some_threads(records: usize, numbers: &mut Numbers) -> usize {
    let most = (records / 3).clamp(2, 16);
    2 + numbers.below(most - 1)
}

fn thread_but_0(threads: usize, numbers: &mut Numbers) -> u8 {
    1 + numbers.below(threads - 1) as u8
}

/// Thread 0's transaction begins a chain over variables or locks, and ends it much later. Some
/// transactions on the way lead nowhere, and some links skip a few.
fn long_cycle(records: usize, numbers: &mut Numbers) -> Vec<Event> {
    let threads = some_threads(records, numbers);
    let mut history = History::new();
    history.fork_all(threads, numbers.percent(50));
    let stray = numbers.one_of(&[0, 0, 10, 30]);
    if numbers.percent(50) {
        history.add(0, Operation::Yield);
    }
    history.write(0, 0, 1);
    let (mut link, mut turn) = (0u8, 0);
    while history.short_of(records.saturating_sub(6)) {
        turn += 1;
        let thread = 1 + (turn % (threads - 1)) as u8;
        if numbers.percent(stray) {
            history.read(thread, link);
        } else {
            history.read(thread, link);
            // Variable 0 is thread 0's alone: a link there would close the cycle early.
            link = if link == 255 { 1 } else { link + 1 };
            history.write(thread, link, numbers.below(3) as u16);
        }
        history.add(thread, Operation::Yield);
    }
    let back = if numbers.percent(70) { link } else { link - link / 3 };
    if numbers.percent(90) {
        history.read(0, back);
    }
    for _ in 0..numbers.below(4) {
        history.read(thread_but_0(threads, numbers), link);
    }
    history.events
}

/// Every thread reads one variable, one writes it, and then one of the readers meets the writer.
fn readers_then_a_write(records: usize, numbers: &mut Numbers) -> Vec<Event> {
    let threads = some_threads(records, numbers);
    let mut history = History::new();
    history.fork_all(threads, numbers.percent(50));
    history.add(0, Operation::Yield);
    while history.short_of(records) {
        let writer = thread_but_0(threads, numbers);
        for reader in 0..threads as u8 {
            if reader != writer && numbers.percent(80) {
                history.read(reader, 0);
            }
        }
        history.write(writer, 0, numbers.below(3) as u16);
        if numbers.percent(50) {
            history.write(writer, 1, 1);
            history.read(numbers.below(threads) as u8, 1);
        }
        for thread in 0..threads as u8 {
            if numbers.percent(95) {
                history.add(thread, Operation::Yield);
            }
        }
    }
    history.events
}

/// Every two transactions have an edge.
fn all_write_one_variable(records: usize, numbers: &mut Numbers) -> Vec<Event> {
    let threads = some_threads(records, numbers);
    let mut history = History::new();
    history.fork_all(threads, false);
    history.add(0, Operation::Yield);
    let yields = numbers.one_of(&[100, 100, 99, 50]);
    while history.short_of(records) {
        let thread = numbers.below(threads) as u8;
        history.write(thread, 0, numbers.below(2) as u16);
        if numbers.percent(yields) {
            history.add(thread, Operation::Yield);
        }
    }
    history.events
}

/// Only forks make edges, so that the threads' numbers alone decide the serial order.
fn nothing_in_common(records: usize, numbers: &mut Numbers) -> Vec<Event> {
    let threads = some_threads(records, numbers);
    let yields = numbers.one_of(&[0, 10, 50]);
    let mut history = History::new();
    history.fork_all(threads, numbers.percent(70));
    while history.short_of(records) {
        let thread = numbers.below(threads) as u8;
        if numbers.percent(yields) {
            history.add(thread, Operation::Yield);
        } else {
            history.write(thread, thread, numbers.below(5) as u16);
        }
    }
    history.events
}

/// Threads wait on locks and are notified; some touch a variable without the lock.
fn monitors(records: usize, numbers: &mut Numbers) -> Vec<Event> {
    let threads = some_threads(records, numbers);
    let locks = 1 + numbers.below(3);
    let mut history = History::new();
    history.fork_all(threads, false);
    history.add(0, Operation::Yield);
    for _ in 0..4 * records {
        let thread = numbers.below(threads) as u8;
        let lock = numbers.below(locks) as u8;
        match numbers.below(9) {
            0 | 1 => history.add(thread, Operation::Acquire { lock }),
            2 => history.add(thread, Operation::Release { lock }),
            3 => history.add(thread, Operation::Prewait { lock }),
            4 | 5 => history.add(thread, Operation::Postwait { lock }),
            6 => history.add(thread, Operation::Notify { lock }),
            7 => history.add(thread, Operation::Yield),
            _ => numbers.percent(20) && history.write(thread, lock, 1),
        };
    }
    history.events
}

/// Threads that hold locks, wait or did nothing are joined, once or again, thread 0 too.
fn joins(records: usize, numbers: &mut Numbers) -> Vec<Event> {
    let threads = some_threads(records, numbers);
    let mut history = History::new();
    history.fork_all(threads, numbers.percent(50));
    for _ in 0..2 * records {
        let acting = numbers.below(threads) as u8;
        let thread = numbers.below(threads) as u8;
        let lock = numbers.below(3) as u8;
        let kinds = if numbers.percent(60) { 10 } else { 5 };
        match numbers.below(kinds) {
            0 => history.add(acting, Operation::Acquire { lock }),
            1 => history.add(acting, Operation::Prewait { lock }),
            2 => history.read(acting, lock),
            3 => history.write(acting, thread, 1),
            4 => history.add(acting, Operation::Yield),
            _ => history.add(acting, Operation::Join { thread }),
        };
    }
    history.events
}

/// A violation early on, and then, anywhere after it, a record that can't be.
fn violation_then_impossible(records: usize, numbers: &mut Numbers) -> Vec<Event> {
    let mut history = History::new();
    history.add(0, Operation::Fork { thread: 1 });
    history.read(0, 0);
    history.write(1, 0, 1);
    history.write(0, 0, 1);
    while history.short_of(records.max(6) - 1) {
        let thread = numbers.below(2) as u8;
        history.write(thread, numbers.below(3) as u8, numbers.below(2) as u16);
        if numbers.percent(20) {
            history.add(thread, Operation::Yield);
        }
    }
    let mut events = history.events;
    let place = (4 + numbers.below(events.len())).min(events.len());
    let impossible = match numbers.below(5) {
        0 => Event { thread: 2, operation: Operation::Yield },
        1 => Event { thread: 0, operation: Operation::Postwait { lock: 0 } },
        2 => Event { thread: 1, operation: Operation::Release { lock: 0 } },
        3 => Event { thread: 1, operation: Operation::Fork { thread: 0 } },
        _ => Event { thread: 0, operation: Operation::Read { variable: 0, value: 9 } },
    };
    if numbers.percent(90) {
        events.insert(place.min(records.saturating_sub(1)), impossible);
    }
    events
}

/// Transactions of one or two records: by yields, by joins, by waits. Past 512 of them is refused.
fn many_transactions(records: usize, numbers: &mut Numbers) -> Vec<Event> {
    let mut history = History::new();
    history.add(0, Operation::Fork { thread: 1 });
    history.add(0, Operation::Fork { thread: 2 });
    history.add(1, Operation::Acquire { lock: 0 });
    history.add(1, Operation::Prewait { lock: 0 });
    let way = numbers.below(4);
    while history.short_of(records) {
        match if way == 3 { numbers.below(3) } else { way } {
            0 => history.add(0, Operation::Yield),
            1 => history.add(0, Operation::Join { thread: 2 }),
            _ => {
                history.add(1, Operation::Postwait { lock: 0 });
                history.add(1, Operation::Prewait { lock: 0 })
            }
        };
    }
    history.events
}

fn locks_held_over_yields(records: usize, numbers: &mut Numbers) -> Vec<Event> {
    let threads = some_threads(records, numbers);
    let mut history = History::new();
    history.fork_all(threads, false);
    history.add(0, Operation::Yield);
    while history.short_of(records) {
        let thread = numbers.below(threads) as u8;
        let lock = numbers.below(2) as u8;
        history.add(thread, Operation::Acquire { lock });
        history.write(thread, lock, numbers.below(4) as u16);
        history.add(thread, Operation::Yield);
        let other = numbers.below(threads) as u8;
        history.read(other, lock + numbers.below(2) as u8);
        history.add(other, Operation::Yield);
        if numbers.percent(90) {
            history.add(thread, Operation::Notify { lock });
            history.add(thread, Operation::Release { lock });
        }
        if numbers.percent(95) {
            history.add(thread, Operation::Yield);
        }
    }
    history.events
}

/// Each section is well locked, but with two in one transaction something may come between.
fn two_sections_in_one_transaction(records: usize, numbers: &mut Numbers) -> Vec<Event> {
    let threads = some_threads(records, numbers);
    let locks = numbers.one_of(&[1, 2, 8, 32]);
    let yields = numbers.one_of(&[0, 80, 97]);
    let mut history = History::new();
    history.fork_all(threads, false);
    history.add(0, Operation::Yield);
    while history.short_of(records) {
        let thread = numbers.below(threads) as u8;
        let lock = numbers.below(locks) as u8;
        history.add(thread, Operation::Acquire { lock });
        if numbers.percent(50) {
            history.write(thread, lock, numbers.below(2) as u16);
        }
        history.add(thread, Operation::Release { lock });
        if numbers.percent(yields) {
            history.add(thread, Operation::Yield);
        }
    }
    history.events
}

/// Layers of transactions, each with edges from the layer before, stirred; then perhaps one edge
/// back. Many paths, and many transactions available at once.
fn layers(records: usize, numbers: &mut Numbers) -> Vec<Event> {
    let threads = some_threads(records, numbers);
    let mut history = History::new();
    history.fork_all(threads, true);
    history.add(0, Operation::Yield);
    let mut layer = 0;
    while history.events.len() + 1 < records && layer < 200 {
        for thread in 0..threads as u8 {
            if numbers.percent(60) {
                history.read(thread, layer + numbers.below(3) as u8);
                history.write(thread, layer + 3 + numbers.below(3) as u8, 1);
                if numbers.percent(97) {
                    history.add(thread, Operation::Yield);
                }
            }
        }
        layer += 3;
    }
    stir(&mut history.events, 4 * records, numbers);
    history.events.truncate(records.saturating_sub(1));
    let mut back = History::new();
    for event in history.events {
        back.add(event.thread, event.operation);
    }
    back.write(numbers.below(threads) as u8, numbers.below(usize::from(layer) + 1) as u8, 1);
    back.events
}

/// Of the same thread, or on the same variable: each transaction has edges to all after it, and
/// only the last one to the first. At 1,024 records all 512 transactions can be on the cycle.
fn longest_cycle(records: usize, numbers: &mut Numbers) -> Vec<Event> {
    let mut history = History::new();
    history.add(0, Operation::Fork { thread: 1 });
    history.add(0, Operation::Fork { thread: 2 });
    let way = numbers.below(3);
    let mut transactions = 1;
    while history.events.len() + 4 < records && transactions < 511 {
        let thread = if way == 0 { 1 } else { 1 + numbers.below(2) as u8 };
        if way == 2 {
            history.write(thread, 1, 1);
        }
        history.add(thread, Operation::Yield);
        transactions += 1;
    }
    let last = history.events.last().map_or(1, |event| event.thread);
    history.write(last.max(1), 2, 1);
    history.read(0, 2);
    history.events
}

/// Threads that do nothing, forked by one thread and joined by another: only the rule for a fork
/// and a join of the same thread holds the two in order.
fn joins_of_idle_threads(records: usize, numbers: &mut Numbers) -> Vec<Event> {
    let busy = 2 + numbers.below(3);
    let mut history = History::new();
    history.fork_all(busy, numbers.percent(50));
    history.add(0, Operation::Yield);
    let mut idle = busy as u8;
    for _ in 0..2 * records {
        let acting = numbers.below(busy) as u8;
        match numbers.below(4) {
            0 if idle < 16 => {
                if history.add(acting, Operation::Fork { thread: idle }) {
                    idle += 1;
                }
            }
            1 | 2 if usize::from(idle) > busy => {
                let thread = (busy + numbers.below(usize::from(idle) - busy)) as u8;
                history.add(acting, Operation::Join { thread });
            }
            _ => {
                history.add(acting, Operation::Yield);
            }
        }
    }
    history.events
}

/// Each thread forks the next one at some time in its life; some are joined by a later one.
fn forks_of_forks(records: usize, numbers: &mut Numbers) -> Vec<Event> {
    let mut history = History::new();
    let mut newest = 0;
    for _ in 0..2 * records {
        let thread = numbers.below(usize::from(newest) + 1) as u8;
        match numbers.below(8) {
            0 | 1 if newest < 15 => {
                if history.add(thread, Operation::Fork { thread: newest + 1 }) {
                    newest += 1;
                }
            }
            2 => {
                let older = numbers.below(usize::from(newest) + 1) as u8;
                let _ =
                    numbers.percent(15) && history.add(thread, Operation::Join { thread: older });
            }
            3 | 4 => {
                history.add(thread, Operation::Yield);
            }
            5 => {
                history.write(thread, numbers.below(40) as u8, 1);
            }
            _ => {
                history.read(thread, numbers.below(40) as u8);
            }
        }
    }
    history.events
}
