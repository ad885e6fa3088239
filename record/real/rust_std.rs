//! rust_std.rs: std's `sync_channel` and `channel`, which are closed when the sender is dropped.
mod relay;
use relay::{Put, Queue, Take, Took, ends, relay};
use std::sync::mpsc::{Receiver, TryRecvError, channel, sync_channel};

fn try_take(receiver: Receiver<u64>) -> impl FnMut() -> Took {
    move || match receiver.try_recv() {
        Ok(item) => Took::Item(item),
        Err(TryRecvError::Empty) => Took::Empty,
        Err(TryRecvError::Disconnected) => Took::Closed,
    }
}

fn bounded() -> (Put, Take) {
    let (sender, receiver) = sync_channel(8);
    ends(move |item| sender.try_send(item).is_ok(), try_take(receiver))
}

fn waiting() -> (Put, Take) {
    let (sender, receiver) = sync_channel(8);
    ends(move |item| sender.send(item).is_ok(), move || receiver.recv().map_or(Took::Closed, Took::Item))
}

fn unbounded() -> (Put, Take) {
    let (sender, receiver) = channel();
    ends(move |item| sender.send(item).is_ok(), try_take(receiver))
}

fn main() -> std::io::Result<()> {
    relay(&[
        Queue("sync_channel", "queue 8", "lawful", bounded),
        Queue("sync_channel_waiting", "queue 8", "lawful", waiting),
        Queue("channel", "queue", "lawful", unbounded),
    ])
}
