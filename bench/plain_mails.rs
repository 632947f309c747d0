//! What `examples_crew many_mails` runs, in plain Rust over `std`'s `sync_channel`s: four ports, four workers and a taker, each in
//! a thread of its own, and a hundred mailboxes to a port, dealt to all workers by the hash of their names. A worker keeps the
//! counts of its mailboxes with one watcher each, and for each change writes a NOTIFY with the lines and the body that a desk
//! of the house writes. `plain_mails <changes of each mailbox>`

use std::collections::BTreeMap;
use std::fmt::Write;
use std::sync::mpsc::{sync_channel, Receiver, SyncSender};
use std::thread;
use std::time::Instant;

const PLACES: usize = 4096;
const WORKERS: usize = 4;

enum Entry<T> {
    Value(T),
    End,
}

/// Whose it is stands here as it does there, though nobody looks.
#[allow(dead_code)]
struct Item<T> {
    from: usize,
    entry: Entry<T>,
}

/// The other variant stands for the notifier's largest.
#[allow(dead_code)]
enum Event {
    Mail { mailbox: String, class: usize, new_count: u32 },
    Request([u64; 70]),
}

#[allow(dead_code)]
struct Out {
    tag: String,
    number: u32,
    bytes: Vec<u8>,
}

const CLASSES: [&str; 5] = ["Voice", "Fax", "Pager", "Multimedia", "Text"];

/// A mailbox, and what its watcher was told.
struct Watched {
    counts: BTreeMap<usize, u32>,
    tag: String,
    number: u32,
}

#[derive(Default)]
struct Desk {
    mailboxes: BTreeMap<String, Watched>,
}

fn body_of(counts: &BTreeMap<usize, u32>) -> String {
    let waiting = if counts.values().any(|count| *count > 0) { "yes" } else { "no" };
    let mut body = format!("Messages-Waiting: {waiting}\r\n");
    for (class, count) in counts {
        write!(body, "{}-Message: {count}/0 (0/0)\r\n", CLASSES[*class]).unwrap();
    }
    body
}

impl Desk {
    fn watch(&mut self, worker: usize, mailbox: String) {
        let tag = format!("w{worker}-{}-76b8e0ada0f13d90", self.mailboxes.len() + 1);
        self.mailboxes.insert(mailbox, Watched { counts: BTreeMap::new(), tag, number: 0 });
    }

    fn handle(&mut self, event: &Event) -> Option<Out> {
        let Event::Mail { mailbox, class, new_count } = event else {
            return None;
        };
        let watched = self.mailboxes.get_mut(mailbox)?;
        if watched.counts.insert(*class, *new_count) == Some(*new_count) {
            return None;
        }
        watched.number += 1;
        let (tag, number, body) = (&watched.tag, watched.number, body_of(&watched.counts));
        let text = format!(
            "NOTIFY sip:{mailbox}@127.0.0.1:5070 SIP/2.0\r\nVia: SIP/2.0/UDP 127.0.0.1:5060;branch=z9hG4bK-{tag}-{number}\r\nMax-Forwards: 70\r\nFrom: <sip:{mailbox}@127.0.0.1>;tag={tag}\r\nTo: <sip:{mailbox}@127.0.0.1>;tag=f1\r\nCall-ID: {mailbox}\r\nCSeq: {number} NOTIFY\r\nContact: <sip:127.0.0.1:5060>\r\nEvent: message-summary\r\nSubscription-State: active;expires=3600\r\nContent-Type: application/simple-message-summary\r\nContent-Length: {}\r\n\r\n{body}",
            body.len()
        );
        Some(Out { tag: tag.clone(), number, bytes: text.into_bytes() })
    }
}

fn name_of(mailbox: usize) -> String {
    format!("m{mailbox:03}")
}

fn home_of(name: &str) -> usize {
    name.bytes().fold(0u32, |hash, byte| hash.wrapping_mul(31).wrapping_add(u32::from(byte))) as usize % WORKERS
}

fn send_all(from: usize, workers: Vec<SyncSender<Item<Event>>>, changes: u32) {
    let names: Vec<String> = (100 * from..100 * (from + 1)).map(name_of).collect();
    for number in 1..=changes {
        for name in &names {
            let event = Event::Mail { mailbox: name.clone(), class: 0, new_count: number };
            workers[home_of(name)].send(Item { from, entry: Entry::Value(event) }).unwrap();
        }
    }
    for worker in &workers {
        worker.send(Item { from, entry: Entry::End }).unwrap();
    }
}

fn work(from: usize, receiver: Receiver<Item<Event>>, poster: SyncSender<Item<Out>>) {
    let mut desk = Desk::default();
    for name in (0..100 * WORKERS).map(name_of).filter(|name| home_of(name) == from) {
        desk.watch(from, name);
    }
    let mut open = WORKERS;
    while open > 0 {
        match receiver.recv().unwrap().entry {
            Entry::End => open -= 1,
            Entry::Value(event) => {
                if let Some(out) = desk.handle(&event) {
                    poster.send(Item { from, entry: Entry::Value(out) }).unwrap();
                }
            }
        }
    }
    poster.send(Item { from, entry: Entry::End }).unwrap();
}

/// How many outs were taken, those of each watcher in order.
fn take_all(taker: Receiver<Item<Out>>) -> u32 {
    let mut open = WORKERS;
    let mut numbers: BTreeMap<String, u32> = BTreeMap::new();
    while open > 0 {
        match taker.recv().unwrap().entry {
            Entry::End => open -= 1,
            Entry::Value(out) => {
                let last = numbers.entry(out.tag).or_default();
                *last += 1;
                assert!(out.number == *last && !out.bytes.is_empty());
            }
        }
    }
    numbers.values().sum()
}

fn main() {
    let changes = std::env::args().nth(1).and_then(|word| word.parse().ok()).unwrap_or(1_250);
    let start = Instant::now();
    let (post, taker) = sync_channel(PLACES);
    let mut threads = Vec::new();
    let mut senders = Vec::new();
    for from in 0..WORKERS {
        let (send, receive) = sync_channel(PLACES);
        let poster = post.clone();
        senders.push(send);
        threads.push(thread::spawn(move || work(from, receive, poster)));
    }
    for from in 0..WORKERS {
        let workers = senders.clone();
        threads.push(thread::spawn(move || send_all(from, workers, changes)));
    }
    drop((post, senders));
    let outs = take_all(taker);
    for thread in threads {
        thread.join().unwrap();
    }
    let seconds = start.elapsed().as_secs_f64();
    println!("plain: {outs} NOTIFYs in {seconds:.2} s, {:.0} a second", f64::from(outs) / seconds);
}
