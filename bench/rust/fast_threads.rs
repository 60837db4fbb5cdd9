//! Work that is dealt to threads. What one thread does alone, it does where it was called.

use std::thread;

/// What a function makes of each of some things, each on a thread of its own.
pub fn each_of<I: Send, T: Send>(things: Vec<I>, make: impl Fn(I) -> T + Sync) -> Vec<T> {
    thread::scope(|scope| {
        let make = &make;
        let mut things = things.into_iter();
        let first = things.next();
        let others: Vec<_> = things
            .map(|thing| scope.spawn(move || make(thing)))
            .collect();
        let mut made: Vec<T> = first.into_iter().map(make).collect();
        made.extend(
            others
                .into_iter()
                .map(|thread| thread.join().expect("a thread panicked")),
        );
        made
    })
}

/// What a function makes of each number below one, each on a thread of its own.
pub fn each<T: Send>(threads: usize, make: impl Fn(usize) -> T + Sync) -> Vec<T> {
    each_of((0..threads).collect(), make)
}
