//! The ends from Rust: refused calls, order in two threads, iterators, ends in a channel and in a struct.
use counter_ring::{open, OpenError, Put, PutAll, Putter, Shape, Take, TakeAll, Taker};
use std::thread;

const SHAPE: Shape = Shape { batch: 4, take_batch: 4, ..Shape::of(8) };

#[test]
fn what_is_out_of_range_is_refused() {
    for (shape, fault) in [
        (Shape { capacity: 0, ..SHAPE }, OpenError::Capacity),
        (Shape { capacity: 65, ..SHAPE }, OpenError::Capacity),
        (Shape { batch: 9, ..SHAPE }, OpenError::Batch),
        (Shape { take_batch: 0, ..SHAPE }, OpenError::TakeBatch),
        (Shape { modulus: 12, ..SHAPE }, OpenError::Modulus),
        (Shape { width: 65, ..SHAPE }, OpenError::Width),
    ] {
        assert_eq!(open(shape).err(), Some(fault), "{shape:?}");
    }
    let (mut putter, mut taker) = open(Shape { width: 3, ..SHAPE }).unwrap();
    assert_eq!(putter.put(8), Put::Refused);
    assert_eq!(putter.put_all(&[]), PutAll::Refused);
    assert_eq!(putter.put_all(&[1, 2, 3, 4, 5]), PutAll::Refused);
    assert_eq!(putter.put_all(&[1, 2, 3]), PutAll::Stored(3));
    let mut into = [9; 4];
    assert_eq!(taker.take_all(&mut into), TakeAll::Taken(3));
    assert_eq!(into, [1, 2, 3, 9]);
    assert_eq!(taker.take_all(&mut []), TakeAll::Refused);
    assert_eq!(taker.take(), Take::Empty);
}

#[test]
fn a_fault_is_an_error_with_words() {
    let fault: Box<dyn std::error::Error> = Box::new(open(Shape::of(65)).unwrap_err());
    assert_eq!(fault.to_string(), "the capacity is out of its range");
}

#[test]
fn all_comes_through_in_order() {
    let (mut putter, mut taker) = open(SHAPE).unwrap();
    let producer = thread::spawn(move || {
        for item in 0..100_000 {
            assert_eq!(putter.put_waiting(item, thread::yield_now), Put::Stored);
        }
        putter.close();
        assert!(putter.is_closed());
        assert_eq!(putter.put(1), Put::Closed);
    });
    assert!(taker.wait(thread::yield_now).eq(0..100_000));
    assert!(taker.is_told());
    assert_eq!(taker.take(), Take::Closed);
    producer.join().unwrap();
}

#[test]
fn what_is_there_now_is_iterated() {
    let (mut putter, mut taker) = open(SHAPE).unwrap();
    assert_eq!(taker.now().count(), 0);
    assert_eq!(putter.put_all(&[1, 2, 3]), PutAll::Stored(3));
    assert_eq!(taker.now().collect::<Vec<_>>(), [1, 2, 3]);
    assert!(!taker.is_told());
}

// An end in a struct of the user's, which a channel sends to another thread.
struct Source {
    end: Putter,
    lost: usize,
}

#[test]
fn an_end_goes_through_a_channel_in_a_struct() {
    let (putter, mut taker) = open(Shape::of(2)).unwrap();
    let (to, from) = std::sync::mpsc::channel::<Source>();
    let producer = thread::spawn(move || {
        let mut source = from.recv().unwrap();
        for item in 1..=5 {
            if source.end.put(item) != Put::Stored {
                source.lost += 1;
            }
        }
        source.lost
    });
    to.send(Source { end: putter, lost: 0 }).unwrap();
    assert_eq!(producer.join().unwrap(), 3);
    assert_eq!(taker.now().collect::<Vec<_>>(), [1, 2]);
}

#[test]
fn an_end_outlives_the_other() {
    let (putter, mut taker) = open(SHAPE).unwrap();
    drop(putter);
    assert_eq!(taker.take(), Take::Empty);
    let (mut putter, taker) = open(SHAPE).unwrap();
    drop(taker);
    assert_eq!(putter.put(1), Put::Stored);
}

fn is_send<T: Send>() {}

#[test]
fn both_ends_are_send() {
    is_send::<Putter>();
    is_send::<Taker>();
}
