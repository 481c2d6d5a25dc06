//! Single rounds of the proved decoder, which takes a whole stream: a second thread watches the buffer that it writes to,
//! and notes when each record's last byte is there. So a round goes from one record to the next.

use crate::decoding::DECODED;
use crate::proved;
use std::sync::atomic::{AtomicBool, AtomicU8, Ordering};
use std::thread;
use std::time::{Duration, Instant};

/// What no record ends with: its last number's last byte is below 128.
const UNWRITTEN: u8 = 0xff;

/// A watcher that did not look for so long is late, and what it then finds written is not counted.
const LATE: Duration = Duration::from_nanos(300);

/// The rounds of a stream as a watcher saw them, again and again.
pub struct Watched {
    out: Vec<AtomicU8>,
    /// The times of each round.
    pub seen: Vec<Vec<Duration>>,
}

impl Watched {
    /// Of a stream whose result has these offsets behind its header and behind each record.
    pub fn new(ends: &[usize]) -> Watched {
        let len = ends.last().copied().unwrap_or(0);
        Watched { out: (0..len).map(|_| UNWRITTEN.into()).collect(), seen: vec![vec![]; ends.len() - 1] }
    }

    /// Decodes the stream once more. While another process has the watcher's core nothing is seen.
    pub fn decode(&mut self, input: &[u8], ends: &[usize]) {
        self.out.iter().for_each(|byte| byte.store(UNWRITTEN, Ordering::Relaxed));
        let (out, [watching, ended]) = (&self.out[..], &[false, false].map(AtomicBool::new));
        let written = thread::scope(|scope| {
            let watcher = scope.spawn(|| watch(out, ends, watching, ended));
            while !watching.load(Ordering::Acquire) {
                thread::yield_now();
            }
            // SAFETY: the bytes may be changed behind a shared reference, and only this thread does. The proved code has
            // no atomic stores; on x86-64, which it is built for, a byte's store is one, and stores are seen in order.
            let out = unsafe { std::slice::from_raw_parts_mut(out.as_ptr().cast_mut().cast(), out.len()) };
            let answer = proved::decode(input, out);
            ended.store(true, Ordering::Release);
            assert_eq!(answer, (DECODED, None, out.len()));
            watcher.join().expect("the watcher ends")
        });
        for (seen, pair) in self.seen.iter_mut().zip(written.windows(2)) {
            if let [Some(from), Some(to)] = pair {
                seen.push(*to - *from);
            }
        }
    }

    /// What was written last.
    pub fn result(&self) -> Vec<u8> {
        self.out.iter().map(|byte| byte.load(Ordering::Relaxed)).collect()
    }
}

/// When each offset was reached; none where the watcher was late, until it is ahead of the decoder again.
fn watch(out: &[AtomicU8], ends: &[usize], watching: &AtomicBool, ended: &AtomicBool) -> Vec<Option<Instant>> {
    let mut times = Vec::with_capacity(ends.len());
    let (mut last, mut late) = (Instant::now(), false);
    watching.store(true, Ordering::Release);
    for end in ends {
        loop {
            // In this order: what is unwritten after the decoder's end stays so.
            let over = ended.load(Ordering::Acquire);
            let written = out[end - 1].load(Ordering::Acquire) != UNWRITTEN;
            let now = Instant::now();
            late |= now - last > LATE;
            last = now;
            if written {
                break;
            }
            if over {
                return times;
            }
            late = false;
        }
        times.push(Some(last).filter(|_| !late));
    }
    times
}
