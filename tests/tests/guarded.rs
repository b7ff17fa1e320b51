//! The guards beside lent memory do their work.

use feedback_tests::guarded::{map, page, Flush, Guarded, BOTH, GUARD};
use std::env;
use std::ops::Range;
use std::os::unix::process::ExitStatusExt;
use std::panic::catch_unwind;
use std::process::{Command, ExitStatus, Stdio};

/// Tells a child of this test what to touch: the way it is lent, the guard it is
/// flush with, the place and the access.
const TOUCH: &str = "FEEDBACK_TOUCH";

/// The signal of a fault, as Linux numbers it.
const SIGSEGV: i32 = 11;

fn child(words: &str) -> ExitStatus {
    Command::new(env::current_exe().expect("this test"))
        .args(["--exact", "guarded::a_touch_beyond_faults"])
        .env(TOUCH, words)
        .stdout(Stdio::null())
        .stderr(Stdio::null())
        .status()
        .expect("a child")
}

/// Touches the lent byte that is flush with the guard, or the one beyond it.
fn touch(words: &str) {
    let words: Vec<&str> = words.split(' ').collect();
    let [way, flush, place, access] = words[..] else { panic!("four words: {words:?}") };
    let flush = if flush == "Start" { Flush::Start } else { Flush::End };
    let mut memory = Guarded::new(1);
    let Range { start, end } = lend(&mut memory, way, flush);
    let (edge, beyond) = match flush {
        Flush::Start => (start, start.wrapping_sub(1)),
        Flush::End => (end.wrapping_sub(1), end),
    };
    let byte = if place == "edge" { edge } else { beyond };
    // SAFETY: the byte at the edge is lent; for the one beyond there is no safety,
    // and it is to end this process.
    unsafe {
        match access {
            "read" => _ = byte.read_volatile(),
            _ => byte.write_volatile(1),
        }
    }
}

/// Where the bytes lie that are lent in one of the ways there are.
fn lend(memory: &mut Guarded, way: &str, flush: Flush) -> Range<*mut u8> {
    let numbers = match way {
        "all" => return memory.all().as_mut_ptr_range(),
        "bytes" => return memory.bytes(&[1, 2, 3], flush).as_mut_ptr_range(),
        "bytes_to_read" => {
            let bytes = memory.bytes_to_read(&[1, 2, 3], flush).as_ptr_range();
            return bytes.start.cast_mut()..bytes.end.cast_mut();
        }
        "numbers" => memory.numbers(&[1, 2, 3], flush).as_ptr_range(),
        _ => memory.numbers_to_read(&[1, 2, 3], flush).as_ptr_range(),
    };
    numbers.start.cast_mut().cast()..numbers.end.cast_mut().cast()
}

/// A child that touches the byte beyond what was lent, or writes what was lent to
/// be read, is ended by a fault, and any other comes back.
#[test]
fn a_touch_beyond_faults() {
    if let Ok(words) = env::var(TOUCH) {
        return touch(&words);
    }
    let (mut faults, mut returns) = (0, 0);
    for way in ["all", "bytes", "bytes_to_read", "numbers", "numbers_to_read"] {
        for flush in BOTH {
            for touch in ["edge read", "edge write", "beyond read", "beyond write"] {
                let words = format!("{way} {flush:?} {touch}");
                let status = child(&words);
                let is_fault = touch.starts_with("beyond")
                    || way.ends_with("to_read") && touch == "edge write";
                if is_fault {
                    assert_eq!(status.signal(), Some(SIGSEGV), "{words}: {status}");
                    faults += 1;
                } else {
                    assert!(status.success(), "{words}: {status}");
                    returns += 1;
                }
            }
        }
    }
    assert_eq!((faults, returns), (5 * 4 + 4, 5 * 4 - 4));
}

/// A page that comes to lie in a guard, next to the memory or as far from it as
/// can be, is noticed when the memory is given back.
#[test]
fn a_page_in_a_guard_is_noticed() {
    let [page, guard, length] = [page(), GUARD, Guarded::new(1).all().len()].map(|n| n as isize);
    for at in [-guard, -page, length, length + guard - page] {
        let mut memory = Guarded::new(1);
        map(memory.all().as_ptr().wrapping_offset(at) as usize, 1);
        assert!(catch_unwind(|| drop(memory)).is_err(), "a page at {at}");
    }
}
