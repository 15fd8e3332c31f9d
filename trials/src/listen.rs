//! Listens to a stream of a program in a thread of its own, because a program may
//! write before it has read everything.

use std::io::Read;
use std::sync::{Arc, Condvar, Mutex, PoisonError};
use std::thread;
use std::time::Duration;

/// What came so far.
#[derive(Default)]
pub struct Output {
    pub bytes: Vec<u8>,
    /// Line feeds among the bytes.
    pub lines: usize,
    pub ended: bool,
}

pub struct Listener {
    output: Mutex<Output>,
    more: Condvar,
}

impl Listener {
    pub fn to(mut stream: impl Read + Send + 'static) -> Arc<Listener> {
        let output = Mutex::new(Output::default());
        let listener = Arc::new(Listener { output, more: Condvar::new() });
        let shared = Arc::clone(&listener);
        thread::spawn(move || {
            let mut piece = vec![0; 1 << 16];
            // A stream that can't be read any more has ended.
            while let Ok(length @ 1..) = stream.read(&mut piece) {
                shared.hear(&piece[..length]);
            }
            shared.change(|output| output.ended = true);
        });
        listener
    }

    fn hear(&self, piece: &[u8]) {
        let lines = piece.iter().filter(|byte| **byte == b'\n').count();
        self.change(|output| {
            output.bytes.extend_from_slice(piece);
            output.lines += lines;
        });
    }

    fn change(&self, change: impl FnOnce(&mut Output)) {
        change(&mut self.output.lock().unwrap_or_else(PoisonError::into_inner));
        self.more.notify_all();
    }

    /// Whether it came to that before the patience was over.
    pub fn wait(&self, patience: Duration, until: impl Fn(&Output) -> bool) -> bool {
        let output = self.output.lock().unwrap_or_else(PoisonError::into_inner);
        let waited = self.more.wait_timeout_while(output, patience, |output| !until(output));
        !waited.unwrap_or_else(PoisonError::into_inner).1.timed_out()
    }

    /// The bytes so far, which are gone from here then.
    pub fn take(&self) -> Vec<u8> {
        let mut output = self.output.lock().unwrap_or_else(PoisonError::into_inner);
        std::mem::take(&mut output.bytes)
    }
}
