//! Names by their contents: cases of document 02's A2.

use ial_baseline::table::{function_at, Function};
use ial_baseline::{check, listing, read, run, write, Ran, Refusal, TABLE};

fn table(text: &[u8]) -> Vec<u8> {
    let mut out = vec![7; TABLE];
    assert_eq!(read(text, &mut out), Ok(()), "{}", String::from_utf8_lossy(text));
    out
}

fn refused(text: &[u8]) -> Option<Refusal> {
    read(text, &mut vec![7; TABLE]).err()
}

/// A text of one function, so called.
fn head(name: &[u8]) -> Vec<u8> {
    [b"function void ", name, b"() { block entry { leave; } }"].concat()
}

/// The contents of a function's name, or the refusal of such a text.
fn contents(name: &[u8]) -> Result<Vec<u8>, Refusal> {
    let mut out = vec![7; TABLE];
    read(&head(name), &mut out)?;
    Ok(Function::of((&out[..]).try_into().unwrap(), 0).name().to_vec())
}

fn text(table: &[u8]) -> Vec<u8> {
    let mut out = vec![7; 65_536];
    let length = write(table, &mut out).unwrap();
    out.truncate(length);
    out
}

#[test]
fn a_name_is_declared_and_used_with_and_without_quotes() {
    let t = table(b"function uint 'sum'(uint x, uint 'y') { register uint 'z'; block entry { z = ari.add 'x', y; jump ('out'); } block out { return 'z'; } }");
    assert_eq!(run(&t, 0, &[3, 4], 9, &mut [0; 3]), Ran::Returned { value: 7, steps: 3 });
    let plain = "function uint sum ( uint x , uint y ) {\nregister uint z ;\nblock entry {\nz = ari.add x , y ;\njump ( out ) ;\n}\nblock out {\nreturn z ;\n}\n}\n";
    assert_eq!(text(&t), plain.as_bytes());
    assert!(table(plain.as_bytes()) == t);
}

#[test]
fn contents_are_what_stands_between_quotes_less_escapes() {
    for (name, kept) in [
        ("x", "x"), ("'x'", "x"), ("'jump'", "jump"), ("'entry'", "entry"), ("'9'", "9"), ("' '", " "), ("'//'", "//"), ("'\n\0'", "\n\0"),
        ("'\\''", "'"), ("'\\'\\''", "''"), ("'\\\\''", "\\'"), ("'\\x'", "\\x"), ("'\\\\x'", "\\\\x"), ("'a\\'b'", "a'b"), ("'\\'(){}'", "'(){}"),
    ] {
        assert_eq!(contents(name.as_bytes()), Ok(kept.as_bytes().to_vec()), "{name}");
    }
    for name in ["''", "'", "'\\'", "'\\\\'", "'\\\\\\'", "'a\\'"] {
        assert_eq!(contents(name.as_bytes()), Err((2, 14)), "{name}");
        assert_eq!(refused(&[b"function void ", name.as_bytes()].concat()), Some((2, 14)), "{name} at the end");
    }
}

#[test]
fn one_to_64_bytes_are_counted_on_the_contents() {
    for n in [1, 63, 64, 65, 66, 128, 200] {
        let inside = ["a".repeat(n), " ".repeat(n), "\\'".repeat(n), "a".repeat(n - 1) + "\\'", "\\".repeat(n - 1) + "a", "\\".repeat(n) + "'"];
        for inside in inside {
            let spelled = format!("'{inside}'");
            let kept = contents(spelled.as_bytes()).map(|kept| kept.len());
            assert_eq!(kept, if n > 64 { Err((2, 14)) } else { Ok(n) }, "{spelled}");
        }
    }
}

#[test]
fn a_second_spelling_is_declared_twice_and_another_name_not_declared() {
    for (one, other) in [("x", "'x'"), ("'x'", "x"), ("'x'", "'x'"), ("'\\''", "'\\''"), ("'int'", "'int'")] {
        for text in [
            format!("function void {one}() {{ block entry {{ leave; }} }} function void {other}"),
            format!("function void f(int {one}, int {other}"),
            format!("function void f(int {one}) {{ register int {other}"),
            format!("function void f() {{ block entry {{ leave; }} block {one} {{ leave; }} block {other}"),
        ] {
            assert_eq!(refused(text.as_bytes()), Some((6, (text.len() - other.len()) as u64)), "{text}");
        }
    }
    for name in ["'\\x'", "' x'", "X", "'\\''", "'\\'x\\''"] {
        let used = "function void f(int x) { block entry { x = copy ";
        assert_eq!(refused(format!("{used}{name}; leave; }} }}").as_bytes()), Some((7, used.len() as u64)), "{name}");
    }
    assert_eq!(refused(b"function void f() { block entry { jump ('entry'); } }"), Some((7, 40)));
    assert_eq!(refused(b"function void f() { block 'entry' { leave; } }"), Some((8, 45)));
}

#[test]
fn a_stored_name_is_spellable_or_9() {
    let named = |name: &[u8]| {
        let mut t = table(&head(b"f"));
        let at = function_at(0) + 8;
        t[at] = name.len() as u8;
        t[at + 1..][..name.len()].copy_from_slice(name);
        t
    };
    for name in [&b"\\"[..], b"a\\", b"'\\", b"\\\\", &[b'\\'; 64], &[b'a'; 65], &[b'a'; 255], b""] {
        assert_eq!(check(&named(name)), Err((9, 0)), "{name:?}");
    }
    for (name, spelled) in [
        (&b"f"[..], &b"f"[..]), (b"jump", b"'jump'"), (b"jumps", b"jumps"), (b"9", b"'9'"), (b"'", b"'\\''"), (b"\\'", b"'\\\\''"), (b"\\a", b"'\\a'"), (b"\0\xff\n", b"'\0\xff\n'"),
        (b"_.9", b"_.9"), (b"a'b'", b"'a\\'b\\''"), (&[b'\''; 64], &[&b"'"[..], &b"\\'".repeat(64), b"'"].concat()),
    ] {
        let t = named(name);
        assert_eq!(check(&t), Ok(()), "{name:?}");
        assert_eq!(text(&t), [b"function void ", spelled, b" ( ) {\nblock entry {\nleave ;\n}\n}\n"].concat());
        assert!(table(&text(&t)) == t, "{name:?}");
        assert_eq!(listing(&head(spelled)), [spelled, b"\t0\t0\t1\t1\n"].concat());
    }
}
