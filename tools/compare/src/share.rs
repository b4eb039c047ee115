//! Work in numbered parts, shared out to threads.

use std::sync::atomic::{AtomicUsize, Ordering};
use std::sync::Mutex;

use crate::progress::Progress;

/// Does each part once, and answers what each of the threads made.
pub fn out<T: Send>(
    jobs: usize,
    progress: Progress,
    begin: impl Fn() -> T + Sync,
    part: impl Fn(&mut T, usize) + Sync,
) -> Vec<T> {
    let parts = progress.total() as usize;
    let next = AtomicUsize::new(0);
    let progress = Mutex::new(progress);
    let results = Mutex::new(Vec::new());
    let worker = || {
        let mut made = begin();
        loop {
            let number = next.fetch_add(1, Ordering::Relaxed);
            if number >= parts {
                break;
            }
            part(&mut made, number);
            progress.lock().unwrap().advance(1);
        }
        results.lock().unwrap().push(made);
    };
    std::thread::scope(|scope| {
        for _ in 0..jobs {
            scope.spawn(worker);
        }
    });
    results.into_inner().unwrap()
}
