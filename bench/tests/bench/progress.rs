//! The line that says how far work has come.

#[path = "../../src/progress.rs"]
mod line;

use std::cell::RefCell;
use std::io::{self, Write};
use std::rc::Rc;
use std::thread;
use std::time::{Duration, Instant};

use line::Progress;

/// What is written, to be looked at while the line is still there.
#[derive(Clone, Default)]
struct Screen(Rc<RefCell<Vec<u8>>>);

impl Write for Screen {
    fn write(&mut self, bytes: &[u8]) -> io::Result<usize> {
        self.0.borrow_mut().extend_from_slice(bytes);
        Ok(bytes.len())
    }

    fn flush(&mut self) -> io::Result<()> {
        Ok(())
    }
}

impl Screen {
    fn taken(&self) -> String {
        let bytes = std::mem::take(&mut *self.0.borrow_mut());
        String::from_utf8(bytes).expect("text")
    }

    fn line(&self, what: &str, pause: Duration) -> Progress<Screen> {
        Progress::on(Some(self.clone()), what, 1000, pause)
    }
}

#[test]
fn the_line_is_drawn_over_and_cleared() {
    let screen = Screen::default();
    let mut line = screen.line("cases", Duration::ZERO);
    line.step(100);
    assert_eq!(screen.taken(), "\rcases: 100 of 1000");
    line.step(7);
    assert_eq!(screen.taken(), "\rcases: 7 of 1000  ");
    drop(line);
    assert_eq!(screen.taken(), format!("\r{:16}\r", ""));
}

#[test]
fn short_work_shows_nothing() {
    let screen = Screen::default();
    let mut line = screen.line("cases", Duration::from_secs(3600));
    (0..1000).for_each(|done| line.step(done));
    drop(line);
    assert_eq!(screen.taken(), "");
}

#[test]
fn the_line_is_drawn_now_and_then() {
    let screen = Screen::default();
    let pause = Duration::from_millis(20);
    let start = Instant::now();
    let mut line = screen.line("cases", pause);
    for done in 0..100 {
        line.step(done);
        thread::sleep(Duration::from_millis(1));
    }
    let most = start.elapsed().as_millis() / pause.as_millis();
    let drawn = screen.taken().matches('\r').count() as u128;
    assert!((1..=most).contains(&drawn), "{drawn} of {most}");
}

#[test]
fn a_long_line_is_cut() {
    let screen = Screen::default();
    let mut line = screen.line(&"é".repeat(200), Duration::ZERO);
    line.step(1);
    assert_eq!(screen.taken(), format!("\r{}", "é".repeat(79)));
}

#[test]
fn there_is_none_off_the_terminal() {
    let mut line = Progress::<Screen>::on(None, "cases", 10, Duration::ZERO);
    line.step(1);
    // On a terminal too the first step comes too soon.
    let mut line = Progress::new("cases", 10);
    line.step(1);
}
