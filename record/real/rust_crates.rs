//! rust_crates.rs: queues of crates that Debian packages. Debian: cargo librust-crossbeam-channel-dev librust-crossbeam-queue-dev
//! librust-concurrent-queue-dev librust-async-channel-dev librust-flume-dev librust-tokio-dev librust-futures-channel-dev
//!
//! A channel is closed when its sender is dropped; a crossbeam queue has a flag beside it. The bounded channel of futures holds one more per
//! sender than its capacity, and may report full with one inside: `queue 1 9`. A channel of capacity 0 has an item only while it is handed over.
mod relay;
use relay::{Put, Queue, Take, Took, ends, flagged_ends, relay};
use std::sync::Arc;

macro_rules! try_take {
    ($receiver:ident, $error:path) => {
        move || match $receiver.try_recv() {
            Ok(item) => Took::Item(item),
            Err($error) => Took::Empty,
            Err(_) => Took::Closed,
        }
    };
}

fn array_queue() -> (Put, Take) {
    let q = Arc::new(crossbeam_queue::ArrayQueue::new(8));
    let of_take = q.clone();
    flagged_ends(move |item| q.push(item).is_ok(), move || of_take.pop())
}

fn seg_queue() -> (Put, Take) {
    let q = Arc::new(crossbeam_queue::SegQueue::new());
    let of_take = q.clone();
    let put = move |item| {
        q.push(item);
        true
    };
    flagged_ends(put, move || of_take.pop())
}

fn crossbeam(capacity: usize) -> (Put, Take) {
    let (sender, receiver) = crossbeam_channel::bounded(capacity);
    ends(move |item| sender.try_send(item).is_ok(), try_take!(receiver, crossbeam_channel::TryRecvError::Empty))
}

fn crossbeam_waiting(capacity: usize) -> (Put, Take) {
    let (sender, receiver) = crossbeam_channel::bounded(capacity);
    ends(move |item| sender.send(item).is_ok(), move || receiver.recv().map_or(Took::Closed, Took::Item))
}

fn crossbeam_unbounded() -> (Put, Take) {
    let (sender, receiver) = crossbeam_channel::unbounded();
    ends(move |item| sender.try_send(item).is_ok(), try_take!(receiver, crossbeam_channel::TryRecvError::Empty))
}

// It has a close of its own, called when the put is dropped.
struct Closes(Arc<concurrent_queue::ConcurrentQueue<u64>>);

impl Drop for Closes {
    fn drop(&mut self) { self.0.close(); }
}

fn concurrent_queue(q: concurrent_queue::ConcurrentQueue<u64>) -> (Put, Take) {
    let q = Arc::new(q);
    let of_put = Closes(q.clone());
    let put = move |item| {
        let Closes(q) = &of_put;
        q.push(item).is_ok()
    };
    ends(put, move || match q.pop() {
        Ok(item) => Took::Item(item),
        Err(concurrent_queue::PopError::Empty) => Took::Empty,
        Err(concurrent_queue::PopError::Closed) => Took::Closed,
    })
}

fn async_channel((sender, receiver): (async_channel::Sender<u64>, async_channel::Receiver<u64>)) -> (Put, Take) {
    ends(move |item| sender.try_send(item).is_ok(), try_take!(receiver, async_channel::TryRecvError::Empty))
}

fn async_channel_waiting() -> (Put, Take) {
    let (sender, receiver) = async_channel::bounded(8);
    ends(move |item| sender.send_blocking(item).is_ok(), move || receiver.recv_blocking().map_or(Took::Closed, Took::Item))
}

fn flume((sender, receiver): (flume::Sender<u64>, flume::Receiver<u64>)) -> (Put, Take) {
    ends(move |item| sender.try_send(item).is_ok(), try_take!(receiver, flume::TryRecvError::Empty))
}

fn flume_waiting() -> (Put, Take) {
    let (sender, receiver) = flume::bounded(8);
    ends(move |item| sender.send(item).is_ok(), move || receiver.recv().map_or(Took::Closed, Took::Item))
}

fn tokio() -> (Put, Take) {
    let (sender, mut receiver) = tokio::sync::mpsc::channel(8);
    ends(move |item| sender.try_send(item).is_ok(), try_take!(receiver, tokio::sync::mpsc::error::TryRecvError::Empty))
}

fn tokio_waiting() -> (Put, Take) {
    let (sender, mut receiver) = tokio::sync::mpsc::channel(8);
    ends(move |item| sender.blocking_send(item).is_ok(), move || receiver.blocking_recv().map_or(Took::Closed, Took::Item))
}

fn tokio_unbounded() -> (Put, Take) {
    let (sender, mut receiver) = tokio::sync::mpsc::unbounded_channel();
    ends(move |item| sender.send(item).is_ok(), try_take!(receiver, tokio::sync::mpsc::error::TryRecvError::Empty))
}

macro_rules! try_next {
    ($receiver:ident) => {
        move || match $receiver.try_next() {
            Ok(Some(item)) => Took::Item(item),
            Ok(None) => Took::Closed,
            Err(_) => Took::Empty,
        }
    };
}

fn futures() -> (Put, Take) {
    let (mut sender, mut receiver) = futures_channel::mpsc::channel(8);
    ends(move |item| sender.try_send(item).is_ok(), try_next!(receiver))
}

fn futures_unbounded() -> (Put, Take) {
    let (sender, mut receiver) = futures_channel::mpsc::unbounded();
    ends(move |item| sender.unbounded_send(item).is_ok(), try_next!(receiver))
}

fn main() -> std::io::Result<()> {
    relay(&[
        Queue("crossbeam_array_queue", "queue 8", "lawful", array_queue),
        Queue("crossbeam_seg_queue", "queue", "lawful", seg_queue),
        Queue("crossbeam_channel", "queue 8", "lawful", || crossbeam(8)),
        Queue("crossbeam_channel_waiting", "queue 8", "lawful", || crossbeam_waiting(8)),
        Queue("crossbeam_channel_unbounded", "queue", "lawful", crossbeam_unbounded),
        Queue("crossbeam_channel_0", "queue 1", "lawful", || crossbeam_waiting(0)),
        Queue("concurrent_queue", "queue 8", "lawful", || concurrent_queue(concurrent_queue::ConcurrentQueue::bounded(8))),
        Queue("concurrent_queue_1", "queue 1", "lawful", || concurrent_queue(concurrent_queue::ConcurrentQueue::bounded(1))),
        Queue("concurrent_queue_unbounded", "queue", "lawful", || concurrent_queue(concurrent_queue::ConcurrentQueue::unbounded())),
        Queue("async_channel", "queue 8", "lawful", || async_channel(async_channel::bounded(8))),
        Queue("async_channel_waiting", "queue 8", "lawful", async_channel_waiting),
        Queue("async_channel_unbounded", "queue", "lawful", || async_channel(async_channel::unbounded())),
        Queue("flume", "queue 8", "lawful", || flume(flume::bounded(8))),
        Queue("flume_waiting", "queue 8", "lawful", flume_waiting),
        Queue("flume_unbounded", "queue", "lawful", || flume(flume::unbounded())),
        Queue("tokio", "queue 8", "lawful", tokio),
        Queue("tokio_waiting", "queue 8", "lawful", tokio_waiting),
        Queue("tokio_unbounded", "queue", "lawful", tokio_unbounded),
        Queue("futures_channel", "queue 1 9", "lawful", futures),
        Queue("futures_channel_named_8", "queue 8", "stored, but at least|full, but at most", futures),
        Queue("futures_channel_unbounded", "queue", "lawful", futures_unbounded),
    ])
}
