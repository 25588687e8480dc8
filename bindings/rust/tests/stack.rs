//! Each call on a thread with just the stack that is said to suffice, and on one of 192 KiB in all. What less would do is tried in bindings/c/test.c.

use ial::raw::{ial_read, Answer};
use ial::{End, Refused, Table, CHECK_STACK, READ_STACK, RUN_EACH_STACK, RUN_STACK, SIGNATURE_STACK, TABLE, TRANSLATE_STACK, WRITE_STACK};

/// What a thread needs for itself: its guard page, its locals and the frames below the call.
const THREAD: usize = 16 * 1024;

/// A thread of so many bytes in all can make every call.
const EVERY: usize = 192 * 1024;

fn on_thread<T: Send>(bytes: usize, call: impl FnOnce() -> T + Send) -> T {
    std::thread::scope(|scope| std::thread::Builder::new().stack_size(bytes).spawn_scoped(scope, call).unwrap().join().unwrap())
}

/// Sixteen functions, in a text of the largest size.
fn text() -> Vec<u8> {
    let turn = include_str!("../../../examples/turn.ial");
    let mut text: Vec<u8> = (0..16).flat_map(|i| turn.replace("turn(", &format!("turn{i}(")).into_bytes()).collect();
    text.resize(65_536, b' ');
    text
}

/// Reads for an output of this length, which is that of no table.
fn read_other(text: &[u8], length: usize) -> Answer {
    let mut output = vec![7; length];
    unsafe { ial_read(text.as_ptr(), text.len(), output.as_mut_ptr(), length) }
}

/// Each call on a thread of as many bytes as its stated stack comes to by `bytes`.
fn each_call(bytes: fn(usize) -> usize) {
    let text = text();
    let table = on_thread(bytes(READ_STACK), || Table::read(&text)).unwrap();
    for length in [0, TABLE - 1, TABLE + 1, 2 * TABLE] {
        assert_eq!(on_thread(bytes(READ_STACK), || read_other(&text, length)), Answer { number: 22, ..Answer::default() });
        assert_eq!(on_thread(bytes(READ_STACK), || read_other(&text[..65], length)).number, 3);
    }
    assert_eq!(on_thread(bytes(CHECK_STACK), || table.check()), Ok(()));
    assert_eq!(on_thread(bytes(RUN_STACK), || table.run(15, &[7, 9, 2], 1_000)).unwrap().end, End::Ended(7));
    assert!(on_thread(bytes(SIGNATURE_STACK), || table.has_signature(15, 7, &[7, 7, 4])));
    let none = Err(Refused { number: 20, place: 1 });
    assert_eq!(on_thread(bytes(RUN_EACH_STACK), || table.run_each(15, &[7, 9], 1_000)), [none, none]);
    assert_eq!(on_thread(bytes(TRANSLATE_STACK), || table.translate(15)).unwrap().check(), Ok(()));
    assert_eq!(on_thread(bytes(WRITE_STACK), || table.write()).unwrap().len(), 16 * 477 + 6);
}

#[test]
fn each_call_has_enough() {
    each_call(|stated| stated + THREAD);
}

#[test]
fn a_small_thread_makes_every_call() {
    each_call(|_| EVERY);
}

#[test]
fn the_header_says_the_same() {
    let header = include_str!("../../c/ial.h");
    let stacks = [("READ", READ_STACK), ("CHECK", CHECK_STACK), ("SIGNATURE", SIGNATURE_STACK), ("RUN", RUN_STACK), ("RUN_EACH", RUN_EACH_STACK), ("TRANSLATE", TRANSLATE_STACK), ("WRITE", WRITE_STACK)];
    for (name, bytes) in stacks {
        assert!(header.contains(&format!("#define IAL_{name}_STACK ({} * 1024)\n", bytes / 1024)), "{name}");
    }
}
