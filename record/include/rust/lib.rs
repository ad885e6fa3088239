//! Records the calls of a queue with one producer and one consumer, and judges them in process. As a dependency of Cargo,
//! `ring_audit = { git = ".." }`, for tests for example; or copy the two files.
pub mod ring_audit;
pub mod ring_calls;
