//! How far long work has come, on a terminal.

use std::io::{self, IsTerminal, Stderr, Write};
use std::time::{Duration, Instant};

/// The line is drawn no sooner than this after the last time, nor at all in work that is shorter.
const PAUSE: Duration = Duration::from_millis(100);

/// More could go on over the terminal's end, where it cannot be drawn over.
const WIDEST: usize = 79;

/// A line on the standard error that says how far work has come. It is drawn over at each step, and
/// cleared when this is dropped: do so before anything else is printed. There is none where the
/// standard error is no terminal.
pub struct Progress<W: Write = Stderr> {
    out: Option<W>,
    what: String,
    total: u64,
    pause: Duration,
    drawn: Instant,
    width: usize,
}

impl Progress {
    /// Of work that has so many steps.
    pub fn new(what: &str, total: u64) -> Self {
        let out = io::stderr();
        Self::on(out.is_terminal().then_some(out), what, total, PAUSE)
    }
}

impl<W: Write> Progress<W> {
    /// On another writer, or none.
    pub fn on(out: Option<W>, what: &str, total: u64, pause: Duration) -> Self {
        Self {
            out,
            what: what.into(),
            total,
            pause,
            drawn: Instant::now(),
            width: 0,
        }
    }

    /// Says that so many steps are done. It may be called as often as there are steps.
    pub fn step(&mut self, done: u64) {
        if self.out.is_some() && self.drawn.elapsed() >= self.pause {
            let line = format!("{}: {done} of {}", self.what, self.total);
            self.draw(&line.chars().take(WIDEST).collect::<String>());
            self.drawn = Instant::now();
        }
    }

    /// Draws a line over the last one.
    fn draw(&mut self, line: &str) {
        let width = line.chars().count();
        let over = self.width.saturating_sub(width);
        if let Some(out) = &mut self.out {
            // Work goes on where no one looks.
            let _ = write!(out, "\r{line}{:over$}", "").and_then(|()| out.flush());
        }
        self.width = width;
    }
}

impl<W: Write> Drop for Progress<W> {
    fn drop(&mut self) {
        if self.width > 0 {
            // Over the line with spaces, then back to where it began.
            self.draw("");
            self.draw("");
        }
    }
}
