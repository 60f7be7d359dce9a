// SPDX-License-Identifier: Apache-2.0
//! A line on the terminal that shows how far a long run is.

use std::io::{self, IsTerminal, Write};
use std::time::{Duration, Instant};

/// Short runs show nothing.
const PATIENCE: Duration = Duration::from_millis(500);

/// Time between two looks at the terminal.
const PAUSE: Duration = Duration::from_millis(100);

/// How far a run is.
pub struct Progress {
    is_shown: bool,
    /// Standard output is a terminal too, so that words and this line could meet.
    shares_terminal: bool,
    /// Words are being printed there.
    gives_way: bool,
    total: u64,
    done: u64,
    began: Instant,
    drawn: Option<Instant>,
}

impl Progress {
    /// A run of so many events, which shows itself only if standard error is a terminal.
    pub fn of(total: u64) -> Progress {
        Progress {
            is_shown: io::stderr().is_terminal(),
            shares_terminal: io::stdout().is_terminal(),
            gives_way: false,
            total,
            done: 0,
            began: Instant::now(),
            drawn: None,
        }
    }

    /// Says whether the next events print words. On a shared terminal the line gives way to them:
    /// they show well enough that the run goes on.
    pub fn give_way(&mut self, to_words: bool) {
        self.gives_way = to_words && self.shares_terminal;
        if self.gives_way {
            self.clear();
        }
    }

    /// So many events more are done.
    pub fn advance(&mut self, events: u64) {
        self.done = self.done.saturating_add(events);
        if self.is_shown && !self.gives_way && self.is_due() {
            self.draw();
        }
    }

    fn is_due(&self) -> bool {
        self.began.elapsed() > PATIENCE && self.drawn.is_none_or(|time| time.elapsed() > PAUSE)
    }

    fn draw(&mut self) {
        let line = line(self.done, self.total, self.began.elapsed());
        // A terminal that cannot be written is no reason to stop the run.
        let _ = write!(io::stderr(), "\r{line}\x1b[K");
        self.drawn = Some(Instant::now());
    }

    /// Wipes the line away, so that other words can be written.
    pub fn clear(&mut self) {
        if self.drawn.take().is_some() {
            let _ = write!(io::stderr(), "\r\x1b[K");
        }
    }
}

/// The line: events done, share and speed.
fn line(done: u64, total: u64, elapsed: Duration) -> String {
    let percent = (done as f64 * 100.0 / total.max(1) as f64).min(100.0);
    let millions_a_second = done as f64 / elapsed.as_secs_f64().max(0.001) / 1.0e6;
    format!("{done} of {total} events, {percent:.0}%, {millions_a_second:.1} million a second")
}

#[cfg(test)]
mod tests {
    use super::*;

    #[test]
    fn the_line_says_how_far_and_how_fast() {
        let shown = line(5_000_000, 20_000_000, Duration::from_secs(2));
        assert_eq!(
            shown,
            "5000000 of 20000000 events, 25%, 2.5 million a second"
        );
        assert!(line(0, 0, Duration::ZERO).contains("0%"));
    }
}
