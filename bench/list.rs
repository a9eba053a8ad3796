//! Times a queue of writers under a mutex with a condition variable for each, on the plan of LevelDB's
//! `DBImpl::Write`, as `list_program` in this folder times the list of writers: the same clients write the same sizes
//! equally often.
//!
//! The arguments are how many clients there are, and how many times each of them writes. What is printed is the
//! microseconds, and how many writes the log has counted.

use std::collections::VecDeque;
use std::env;
use std::error::Error;
use std::hint::black_box;
use std::sync::{Condvar, Mutex, PoisonError};
use std::thread;
use std::time::Instant;

/// The most bytes of a group.
const MAX: u64 = 1_048_576;

/// The log: how many writes were counted, and the sum of their sizes.
#[derive(Default)]
struct Counter {
    count: u64,
    sum: u64,
}

/// What a client is answered: the counter's number, and the client's own size.
#[derive(Clone, Copy)]
struct Answer {
    number: u64,
    size: u64,
}

#[derive(Default)]
struct Client {
    size: u64,
    answer: Option<Answer>,
}

/// The clients that wait, in the order in which they came, the leader first, and the log, which a leader takes.
struct Queue {
    waiting: VecDeque<usize>,
    clients: Vec<Client>,
    log: Counter,
}

struct Writers {
    queue: Mutex<Queue>,
    bells: Vec<Condvar>,
}

impl Writers {
    fn new(clients: usize) -> Writers {
        Writers {
            queue: Mutex::new(Queue {
                waiting: VecDeque::with_capacity(clients),
                clients: (0..clients).map(|_| Client::default()).collect(),
                log: Counter::default(),
            }),
            bells: (0..clients).map(|_| Condvar::new()).collect(),
        }
    }

    /// Waits until this client is done or is the first. The first takes its group, handles it without the lock,
    /// answers its members, and wakes the next. `group` and `answers` are room for that.
    fn write(&self, client: usize, size: u64, group: &mut Vec<u64>, answers: &mut Vec<Answer>) -> Answer {
        let mut queue = self.queue.lock().unwrap_or_else(PoisonError::into_inner);
        queue.clients[client].size = size;
        queue.clients[client].answer = None;
        queue.waiting.push_back(client);
        while queue.clients[client].answer.is_none() && queue.waiting.front() != Some(&client) {
            queue = self.bells[client].wait(queue).unwrap_or_else(PoisonError::into_inner);
        }
        if let Some(answer) = queue.clients[client].answer {
            return answer;
        }
        group.clear();
        queue.gather(size, group);
        let mut log = std::mem::take(&mut queue.log);
        drop(queue);
        log.handle(group, answers);
        let mut queue = self.queue.lock().unwrap_or_else(PoisonError::into_inner);
        queue.log = log;
        for answer in &*answers {
            let Some(member) = queue.waiting.pop_front() else { break };
            queue.clients[member].answer = Some(*answer);
            if member != client {
                self.bells[member].notify_one();
            }
        }
        if let Some(&next) = queue.waiting.front() {
            self.bells[next].notify_one();
        }
        answers[0]
    }
}

impl Queue {
    /// The sizes of the group: as many of the waiting ones as the leader's cap has room for.
    fn gather(&self, leader: u64, group: &mut Vec<u64>) {
        let cap = if leader <= MAX / 8 { leader + MAX / 8 } else { MAX };
        let mut sum = 0;
        for &member in &self.waiting {
            let size = self.clients[member].size;
            sum += size;
            if !group.is_empty() && sum > cap {
                return;
            }
            group.push(size);
        }
    }
}

impl Counter {
    fn handle(&mut self, group: &[u64], answers: &mut Vec<Answer>) {
        answers.clear();
        for &size in group {
            answers.push(Answer { number: self.count, size });
            self.count += 1;
            self.sum += size;
        }
    }
}

fn main() -> Result<(), Box<dyn Error>> {
    let mut words = env::args().skip(1);
    let clients = words.next().ok_or("how many clients?")?.parse::<usize>()?.max(1);
    let times = words.next().ok_or("how many times?")?.parse::<u64>()?;
    let writers = Writers::new(clients);
    let start = Instant::now();
    thread::scope(|scope| {
        for client in 0..clients {
            let writers = &writers;
            scope.spawn(move || {
                let mut group = Vec::with_capacity(clients);
                let mut answers = Vec::with_capacity(clients);
                for _ in 0..times {
                    let answer = writers.write(client, client as u64 + 1, &mut group, &mut answers);
                    black_box((answer.number, answer.size));
                }
            });
        }
    });
    let spent = start.elapsed();
    let log = writers.queue.into_inner().unwrap_or_else(PoisonError::into_inner).log;
    black_box(log.sum);
    println!("{} {}", spent.as_micros(), log.count);
    Ok(())
}
