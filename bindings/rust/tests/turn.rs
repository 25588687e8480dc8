//! The interface over the library, on the paper's `turn` and on what it refuses. What the answers are is proved; what is tested
//! here is that they arrive.

use ial::{End, Outcome, Refused, Table, REGISTERS, TABLE, TEXT};

fn turn() -> Table {
    Table::read(include_bytes!("../../../examples/turn.ial")).unwrap()
}

#[test]
fn reads_checks_runs_and_translates() {
    let source = turn();
    assert_eq!(source.check(), Ok(()));
    let translation = source.translate(0).unwrap();
    assert_eq!(translation.check(), Ok(()));
    for (n, value, steps, translated) in [(0, 7, 9, 13), (1, 9, 16, 24), (2, 7, 23, 35)] {
        let run = source.run(0, &[7, 9, n], u64::MAX).unwrap();
        assert_eq!((run.end, run.steps), (End::Ended(value), steps));
        assert_eq!(run.registers[..3], [7, 9, n]);
        assert_eq!(run.registers[10..], [0; REGISTERS - 10]);
        let run = translation.run(0, &[7, 9, n], u64::MAX).unwrap();
        assert_eq!((run.end, run.steps), (End::Ended(value), translated));
    }
}

#[test]
fn signatures_are_told_apart() {
    let table = turn();
    assert!(table.has_signature(0, 7, &[7, 7, 4]));
    assert!(!table.has_signature(0, 9, &[7, 7, 4]));
    assert!(!table.has_signature(0, 7, &[7, 7]));
    assert!(!table.has_signature(0, 7, &[7, 7, 4, 7]));
    assert!(!table.has_signature(0, 7, &[7, 4, 7]));
    assert!(!table.has_signature(1, 7, &[7, 7, 4]));
    assert!(!Table::from_cells(&[255; TABLE]).unwrap().has_signature(0, 255, &[255; TABLE]));
}

#[test]
fn many_runs_are_runs_of_each() {
    let text = b"function uint8 share(uint8 a) { register uint8 c; register uint8 d; block entry { c = load.ui8 (100); d = ari.div c, a; return d; } }";
    let table = Table::read(text).unwrap();
    let arguments = [3, 0, 256, 100, u64::MAX, 7];
    for (function, budget) in [(0, 3), (0, 2), (1, 3)] {
        let each = table.run_each(function, &arguments, budget);
        assert_eq!(each.len(), arguments.len());
        for (argument, answer) in arguments.iter().zip(each) {
            assert_eq!(answer, table.run(function, &[*argument], budget).map(|r| Outcome { end: r.end, steps: r.steps }));
        }
    }
    assert_eq!(table.run_each(0, &arguments, 3)[5], Ok(Outcome { end: End::Ended(14), steps: 3 }));
    assert_eq!(turn().run_each(0, &[7, 9], 100), [Err(Refused { number: 20, place: 1 }); 2]);
    assert_eq!(Table::from_cells(&[255; TABLE]).unwrap().run_each(0, &[1], 1), [Err(Refused { number: 9, place: 0 })]);
    assert_eq!(table.run_each(0, &[], 1), []);
}

#[test]
fn texts_are_written_and_read_back() {
    let source = turn();
    let text = source.write().unwrap();
    assert!(text.starts_with(b"function ssa uint64 turn ( uint64 a , uint64 b , uint8 n ) {\nregister uint64 x ;\n"));
    assert_eq!(Table::read(&text), Ok(source.clone()));
    let translation = source.translate(0).unwrap();
    let shown = translation.write().unwrap();
    let named = Table::read(&shown).unwrap();
    assert_ne!(named, translation);
    assert_eq!(named.write(), Ok(shown.clone()));
    assert_eq!(named.run(0, &[7, 9, 2], 1_000), translation.run(0, &[7, 9, 2], 1_000));
    let mut buffer = vec![255; TEXT];
    assert_eq!(translation.write_into(&mut buffer), Ok(shown.len()));
    assert_eq!(buffer[..shown.len()], shown);
    assert!(buffer[shown.len()..].iter().all(|&b| b == 0));
    let short = &mut buffer[..shown.len() - 1];
    assert_eq!(translation.write_into(short), Err(Refused { number: 32, place: 0 }));
    assert!(short.iter().all(|&b| b == 0));
    assert_eq!(Table::from_cells(&[255; TABLE]).unwrap().write(), Err(Refused { number: 9, place: 0 }));
}

/// The name of function 0 is at cell 9, behind its length, by docs/TABLE.md.
#[test]
fn names_are_their_contents() {
    let quoted = Table::read(b"function uint 'it\\'s'(uint x) { block 'entry' { jump (entry); } block entry { return 'x'; } }").unwrap();
    assert_eq!(quoted.cells()[9..14], *b"\x04it's");
    let written = b"function uint 'it\\'s' ( uint x ) {\nblock 'entry' {\njump ( entry ) ;\n}\nblock entry {\nreturn x ;\n}\n}\n";
    assert_eq!(quoted.write().unwrap(), written);
    assert_eq!(Table::read(written), Ok(quoted.clone()));
    let mut cells = quoted.cells().to_vec();
    cells[13] = b'\\';
    assert_eq!(Table::from_cells(&cells).unwrap().check(), Err(Refused { number: 9, place: 0 }));
    assert_eq!(Table::read(b"function uint f(uint x, uint 'x'"), Err(Refused { number: 6, place: 29 }));
}

#[test]
fn stops_and_refusals_arrive() {
    let table = turn();
    let run = table.run(0, &[7, 9, 2], 10).unwrap();
    assert_eq!((run.end, run.steps), (End::Stopped { number: 43, place: 3 }, 10));
    assert_eq!(table.run(0, &[7, 9], 10), Err(Refused { number: 20, place: 2 }));
    assert_eq!(table.run(0, &[7, 9, 256], 10), Err(Refused { number: 20, place: 2 }));
    assert_eq!(table.run(1, &[], 10), Err(Refused { number: 21, place: 0 }));
    assert_eq!(table.translate(u64::MAX), Err(Refused { number: 21, place: 0 }));
    assert_eq!(Table::read(b"function"), Err(Refused { number: 3, place: 8 }));
    assert_eq!(Table::read(&[b' '; 65_537]), Err(Refused { number: 1, place: 0 }));
    assert_eq!(Table::from_cells(&[0; TABLE - 1]), Err(Refused { number: 9, place: 0 }));
    assert_eq!(turn().translate(0).unwrap().translate(0), Err(Refused { number: 30, place: 0 }));
}

#[test]
fn cells_go_out_and_come_back() {
    let table = turn();
    assert_eq!(Table::from_cells(table.cells()), Ok(table));
}

/// The list of block `head`'s predecessors, at the offsets of docs/TABLE.md.
#[test]
fn another_list_of_predecessors_is_refused() {
    let head = 1 + 16_969 + 134 + 69;
    let mut cells = turn().cells().to_vec();
    assert_eq!(cells[head..][..65], [&[2, 0, 2][..], &[0; 62]].concat());
    cells[head + 3..][..62].fill(1);
    assert_eq!(Table::from_cells(&cells).unwrap().check(), Ok(()));
    cells.swap(head + 1, head + 2);
    let table = Table::from_cells(&cells).unwrap();
    let refused = Refused { number: 9, place: 0 };
    assert_eq!(table.check(), Err(refused));
    assert_eq!(table.run(0, &[7, 9, 2], 1_000), Err(refused));
    assert_eq!(table.translate(0), Err(refused));
}

#[test]
fn refusals_say_what_was_wrong() {
    let refused = Table::read(b"function ssa x").unwrap_err();
    assert_eq!(refused.to_string(), "refused 3: token not allowed here, end included, at byte 13");
    assert_eq!(Refused { number: 11, place: 4_101 }.to_string(), "refused 11: types wrong, or leave outside a void function, in function 2, row 5");
}
