//! What `examples_crew queues` measures, in plain Rust over `std`'s `sync_channel`s: two ports, two workers and a taker, each in a
//! thread of its own, with values as large as the notifier's. `plain_queues <events a port> <capacity>...`

use std::sync::mpsc::{sync_channel, Receiver, SyncSender};
use std::thread;
use std::time::Instant;

enum Entry<T> {
    Value(T),
    End,
}

#[allow(dead_code)]
struct Item<T> {
    from: u32,
    entry: Entry<T>,
}

/// The other variants stand for the notifier's largest.
#[allow(dead_code)]
enum Event {
    Mail { mailbox: String, new_count: u32 },
    Request([u64; EVENT_WORDS]),
}

#[allow(dead_code)]
enum Out {
    Start { tag: String, refer_to: String },
    Notify([u64; OUT_WORDS]),
}

const EVENT_WORDS: usize = 70;
const OUT_WORDS: usize = 10;

fn send_all(from: u32, first: SyncSender<Item<Event>>, second: SyncSender<Item<Event>>, count: u32) {
    for number in 0..count {
        let worker = if number % 2 == 0 { &first } else { &second };
        let event = Event::Mail { mailbox: String::from("alice"), new_count: number };
        worker.send(Item { from, entry: Entry::Value(event) }).unwrap();
    }
    first.send(Item { from, entry: Entry::End }).unwrap();
    second.send(Item { from, entry: Entry::End }).unwrap();
}

fn work(from: u32, receiver: Receiver<Item<Event>>, poster: SyncSender<Item<Out>>) {
    let mut open = 2;
    while open > 0 {
        match receiver.recv().unwrap().entry {
            Entry::Value(event) => {
                drop(event);
                let out = Out::Start { tag: String::from("alice"), refer_to: String::new() };
                poster.send(Item { from, entry: Entry::Value(out) }).unwrap();
            }
            Entry::End => open -= 1,
        }
    }
    poster.send(Item { from, entry: Entry::End }).unwrap();
}

fn take_all(taker: Receiver<Item<Out>>) -> u32 {
    let mut open = 2;
    let mut outs = 0;
    while open > 0 {
        match taker.recv().unwrap().entry {
            Entry::Value(out) => {
                drop(out);
                outs += 1;
            }
            Entry::End => open -= 1,
        }
    }
    outs
}

fn hand_over(capacity: usize, count: u32) -> u32 {
    let (to_a, a) = sync_channel(capacity);
    let (to_b, b) = sync_channel(capacity);
    let (post, taker) = sync_channel(capacity);
    let (second_to_a, second_to_b, second_post) = (to_a.clone(), to_b.clone(), post.clone());
    let threads = [
        thread::spawn(move || send_all(0, to_a, to_b, count)),
        thread::spawn(move || send_all(1, second_to_a, second_to_b, count)),
        thread::spawn(move || work(0, a, post)),
        thread::spawn(move || work(1, b, second_post)),
    ];
    let outs = take_all(taker);
    for thread in threads {
        thread.join().unwrap();
    }
    outs
}

fn main() {
    let numbers: Vec<u32> = std::env::args().skip(1).filter_map(|word| word.parse().ok()).collect();
    let Some((&count, capacities)) = numbers.split_first() else {
        return;
    };
    println!("an event has {} bytes, an out {}", size_of::<Event>(), size_of::<Out>());
    for &capacity in capacities {
        let start = Instant::now();
        let outs = hand_over(capacity as usize, count);
        let nanos = start.elapsed().as_nanos() / u128::from(outs.max(1));
        println!("plain, capacity {capacity}: {nanos} ns an event, {outs} events");
    }
}
