//! Many files at once, and a line on the terminal that says how far they are.

use std::collections::BTreeMap;
use std::io::{self, IsTerminal, Write};
use std::sync::atomic::{AtomicUsize, Ordering};
use std::sync::mpsc;
use std::thread;

/// Works on every item, as many at a time as there are processors, and hands on the results in the items' order.
pub fn in_order<T: Sync, R: Send>(
    items: &[T],
    work: impl Fn(&T) -> R + Sync,
    mut then: impl FnMut(usize, R) -> io::Result<()>,
) -> io::Result<()> {
    let workers = thread::available_parallelism().map_or(1, |n| n.get()).min(items.len());
    let next = AtomicUsize::new(0);
    let (send, receive) = mpsc::channel();
    thread::scope(|scope| {
        for _ in 0..workers {
            let (send, next, work) = (send.clone(), &next, &work);
            scope.spawn(move || {
                while let Some((i, item)) = Some(next.fetch_add(1, Ordering::Relaxed)).and_then(|i| Some((i, items.get(i)?))) {
                    // the receiver is gone where nothing more can be written
                    if send.send((i, work(item))).is_err() {
                        return;
                    }
                }
            });
        }
        drop(send);
        let (receive, mut early, mut wanted) = (receive, BTreeMap::new(), 0);
        for (i, result) in &receive {
            early.insert(i, result);
            while let Some(result) = early.remove(&wanted) {
                then(wanted, result)?;
                wanted += 1;
            }
        }
        Ok(())
    })
}

/// A line on standard error, where that is a terminal, and nothing elsewhere.
pub struct Progress {
    shown: bool,
}

impl Progress {
    pub fn new() -> Progress {
        Progress { shown: io::stderr().is_terminal() }
    }

    /// The line is written over the one before.
    pub fn say(&self, done: usize, of: usize, what: &str) {
        if self.shown {
            let what: String = what.chars().take(60).collect();
            let _ = write!(io::stderr(), "\r{done} of {of}  {what}\x1b[K");
        }
    }

    /// Leaves no line behind.
    pub fn clear(&self) {
        if self.shown {
            let _ = write!(io::stderr(), "\r\x1b[K");
        }
    }
}

impl Drop for Progress {
    fn drop(&mut self) {
        self.clear();
    }
}

#[cfg(test)]
mod tests {
    use super::*;

    #[test]
    fn results_come_in_order() {
        let items: Vec<usize> = (0..1000).collect();
        let mut seen = Vec::new();
        let then = |i, result| {
            seen.push((i, result));
            Ok(())
        };
        in_order(&items, |n| n * 2, then).unwrap();
        assert_eq!(seen, (0..1000).map(|n| (n, n * 2)).collect::<Vec<_>>());
    }

    #[test]
    fn a_fault_ends_it() {
        let items = [1; 100];
        assert!(in_order(&items, |n| *n, |_, _| Err(io::ErrorKind::BrokenPipe.into())).is_err());
    }
}
