//! Comparisons on two threads.

use std::io;
use std::path::Path;
use std::sync::atomic::{AtomicUsize, Ordering};
use std::sync::Mutex;
use std::time::{SystemTime, UNIX_EPOCH};

/// How many comparisons go on at the same time.
const THREADS: usize = 2;

/// A seed by the clock.
pub fn seed_by_the_clock() -> u64 {
    let now = SystemTime::now().duration_since(UNIX_EPOCH);
    now.map_or(1, |d| d.as_nanos() as u64 % 1_000_000_000)
}

/// Makes the comparisons 0 up to `all`, each with the path of a file to use and
/// the thread's tally; stops at the first difference. Gives the threads' tallies
/// and the difference.
pub fn on_two_threads<T: Default + Send>(
    all: usize,
    compare: impl Fn(usize, &Path, &mut T) -> io::Result<Option<String>> + Sync,
) -> io::Result<(Vec<T>, Option<String>)> {
    let next = AtomicUsize::new(0);
    let difference = Mutex::new(None);
    let work = |thread: usize| -> io::Result<T> {
        let name = format!("second-model-{}-{thread}.records", std::process::id());
        let path = std::env::temp_dir().join(name);
        let mut tally = T::default();
        loop {
            let index = next.fetch_add(1, Ordering::Relaxed);
            if index >= all {
                break;
            }
            let found = compare(index, &path, &mut tally);
            if !matches!(found, Ok(None)) {
                next.store(all, Ordering::Relaxed);
                let found = found?;
                let mut difference = difference.lock().expect("no thread failed");
                difference.get_or_insert(found.unwrap_or_default());
            }
        }
        let _ = std::fs::remove_file(&path);
        Ok(tally)
    };
    let tallies: io::Result<Vec<T>> = std::thread::scope(|scope| {
        let work = &work;
        let threads: Vec<_> = (0..THREADS)
            .map(|thread| scope.spawn(move || work(thread)))
            .collect();
        let joined = threads.into_iter().map(|t| t.join());
        joined.map(|r| r.expect("a thread ended")).collect()
    });
    let difference = difference.into_inner().expect("no thread failed");
    Ok((tallies?, difference))
}
