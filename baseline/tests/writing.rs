//! Tables written as text: the outside vectors of document 02's A1 with A2, and cases of its words.

mod naming;
mod outside;

use ial_baseline::{check, listing, read, translate, write, Refusal, TABLE};
use naming::{edited, name_line, set_name};
use outside::{all, Expected};

/// Writes to a buffer of so many bytes that hold something; what it holds afterwards past the text is 0.
fn written(table: &[u8], room: usize) -> Result<Vec<u8>, Refusal> {
    let mut out = vec![0xa5; room];
    let answer = write(table, &mut out);
    assert!(out[answer.unwrap_or(0)..].iter().all(|&byte| byte == 0), "the buffer past the text");
    answer.map(|length| out[..length].to_vec())
}

/// What a vector has come to: the tables that it writes, and the text last shown of one of them with its made names filled in.
struct Session {
    own: Vec<u8>,
    edited: Vec<u8>,
    translation: (String, Vec<u8>),
    shown: Vec<u8>,
    named: Vec<u8>,
}

impl Session {
    fn of(text: &[u8]) -> (Session, Result<(), Refusal>) {
        let mut own = vec![1; TABLE];
        let read = read(text, &mut own);
        let (edited, named) = (own.clone(), own.clone());
        (Session { own, edited, translation: (String::new(), vec![1; TABLE]), shown: vec![], named }, read)
    }

    fn table(&mut self, source: &str) -> &[u8] {
        match source.strip_prefix("translation.") {
            None if source == "own" => &self.own,
            None => &self.edited,
            Some(function) => {
                if self.translation.0 != source {
                    assert_eq!(translate(&self.own, function.parse().unwrap(), &mut self.translation.1), Ok(()));
                    self.translation.0 = source.to_string();
                }
                &self.translation.1
            }
        }
    }

    /// A line `write`; a text shown is the next bytes expected.
    fn write(&mut self, fields: &[&str], expected: &mut Expected) {
        let table = self.table(fields[0]).to_vec();
        let answer = written(&table, fields[1].parse().unwrap());
        match fields[2] {
            "refused" => assert_eq!(answer, Err((fields[3].parse().unwrap(), fields[4].parse().unwrap()))),
            "same" => assert_eq!(answer, Ok(self.shown.clone())),
            _ => {
                self.read_back();
                self.shown = expected.bytes(fields[3].parse().unwrap()).to_vec();
                self.named = table;
                assert_eq!(answer, Ok(self.shown.clone()));
            }
        }
    }

    /// The text last shown, read back, is its table with the made names; and written again it is the same.
    fn read_back(&mut self) {
        if self.shown.is_empty() {
            return;
        }
        let mut back = vec![1; TABLE];
        assert_eq!(read(&self.shown, &mut back), Ok(()));
        assert!(back == self.named, "the table read back");
        assert_eq!(written(&back, self.shown.len()), Ok(self.shown.clone()));
    }
}

/// One vector; the number of lines compared.
fn vector(text: &[u8], expected: &[u8]) -> usize {
    let mut expected = Expected(expected);
    let (mut session, mut answer) = Session::of(text);
    let mut compared = 0;
    while !expected.0.is_empty() {
        let line = expected.line();
        let fields: Vec<&str> = line.split('\t').collect();
        let refusal = || (fields[1].parse().unwrap(), fields[2].parse().unwrap());
        match fields[0] {
            "listing" => assert_eq!(listing(text), expected.bytes(fields[1].parse().unwrap())),
            "read" => assert_eq!(answer.err().unwrap_or((0, 0)), refusal()),
            "check" => {
                answer = check(&session.own);
                assert_eq!(answer.err().unwrap_or((0, 0)), refusal());
            }
            "write" => session.write(&fields[1..], &mut expected),
            "edited" => session.edited = edited(&session.own, fields[1].parse().unwrap(), &mut expected),
            "check.edited" => assert_eq!(check(&session.edited).err().unwrap_or((0, 0)), refusal()),
            "made" => name_line(&mut session.named, &fields[2..]),
            "translate" => {
                let refused = translate(&session.own, fields[1].parse().unwrap(), &mut vec![1; TABLE]).unwrap_err();
                assert_eq!(format!("translate\t{}\trefused\t{}\t{}", fields[1], refused.0, refused.1), line);
            }
            other => panic!("unknown line {other}"),
        }
        compared += 1;
    }
    session.read_back();
    compared
}

#[test]
fn all_vectors() {
    all("requests/a2-write", vector);
}

fn table(text: &str) -> Vec<u8> {
    let mut out = vec![7; TABLE];
    assert_eq!(read(text.as_bytes(), &mut out), Ok(()), "{text}");
    out
}

fn text(table: &[u8]) -> String {
    String::from_utf8(written(table, 65_536).unwrap()).unwrap()
}

#[test]
fn turn_and_its_translation() {
    let turn = table(include_str!("../../examples/turn.ial"));
    let own = text(&turn);
    assert!(own.starts_with("function ssa uint64 turn ( uint64 a , uint64 b , uint8 n ) {\nregister uint64 x ;\n"), "{own}");
    assert!(own.contains("\nblock head {\nx = phi ( a , y ) ;\n"), "{own}");
    assert!(own.ends_with("jump.cond c ( out , body ) ;\n}\nblock body {\nm = ari.sub k , one ;\njump ( head ) ;\n}\nblock out {\nreturn x ;\n}\n}\n"), "{own}");
    let mut translation = vec![7; TABLE];
    translate(&turn, 0, &mut translation).unwrap();
    let shown = text(&translation);
    assert!(shown.contains("\nregister uint c ;\nregister uint64 p.0 ;\nregister uint64 p.1 ;\nregister uint8 p.2 ;\nblock entry {\n"), "{shown}");
    assert!(shown.contains("\nblock e.1 {\np.0 = copy y ;\np.1 = copy x ;\np.2 = copy m ;\nx = copy p.0 ;\ny = copy p.1 ;\nk = copy p.2 ;\njump ( head ) ;\n}\n"), "{shown}");
}

#[test]
fn numbers_are_shortest_and_by_meaning() {
    let load = |bits: u32, number: &str| {
        let kind = if number.contains('-') || number.contains('+') { "" } else { "u" };
        let text_of = text(&table(&format!(
            "function void f() {{ register {kind}int{bits} r; block entry {{ r = load.{kind}i{bits} ({number}); leave; }} }}"
        )));
        let (_, rest) = text_of.split_once("( ").unwrap().1.split_once("( ").unwrap();
        rest.split_once(" )").unwrap().0.to_string()
    };
    for bits in [8, 16, 32, 64] {
        let most = u64::MAX >> (64 - bits);
        let (least, greatest) = (format!("-{}", most / 2 + 1), format!("+{}", most / 2));
        assert_eq!(load(bits, &least), least);
        assert_eq!(load(bits, &greatest), greatest[1..]);
        assert_eq!(load(bits, &format!("0x00{most:x}")), most.to_string());
        assert_eq!(load(bits, "-0001"), "-1");
        assert_eq!(load(bits, "-0"), "0");
        assert_eq!(load(bits, "0000"), "0");
    }
}

#[test]
fn made_names_pass_those_in_use() {
    let mut t = table(
        "function uint f(uint a, uint p.1, uint p.00) { register uint b; register uint p.3; register uint e.0; register uint c;
        block x { jump (y); } block entry { jump.cond a (x, z); } block z { return a; } block e.1 { return b; } block y { return c; } }",
    );
    for r in [0, 3, 6] {
        set_name(&mut t, "register", 0, r, b"");
    }
    for b in [0, 2, 4] {
        set_name(&mut t, "block", 0, b, b"");
    }
    let lines: Vec<String> = text(&t).lines().map(str::to_string).collect();
    assert_eq!(lines[0], "function uint f ( uint p.0 , uint p.1 , uint p.00 ) {");
    assert_eq!(lines[1..5], ["register uint p.2 ;", "register uint p.3 ;", "register uint e.0 ;", "register uint p.4 ;"]);
    assert_eq!(lines[5..11], ["block e.0 {", "jump ( e.3 ) ;", "}", "block entry {", "jump.cond p.0 ( e.0 , e.2 ) ;", "}"]);
    assert_eq!(lines[11..14], ["block e.2 {", "return p.0 ;", "}"]);
    assert_eq!(lines[14..], ["block e.1 {", "return p.2 ;", "}", "block e.3 {", "return p.4 ;", "}", "}"]);
}

#[test]
fn refusals_in_order_zero_the_buffer() {
    let none = table("");
    assert_eq!(written(&none, 0), Ok(vec![]));
    assert_eq!(written(&none, 9), Ok(vec![]));
    assert_eq!(written(&none[1..], 0), Err((9, 0)));
    // Each function has 4,091 bytes beside its name: `function void N ( ) {`, `block entry {`, 674 times `nop ;`, `leave ;`, twice `}`.
    let of = |names: usize, last: usize| {
        let mut s = String::new();
        for i in 0..16 {
            let name = "n".repeat(if i == 15 { last } else { names }) + &format!("{i:x}");
            s += &format!("function void {name}(){{block entry{{{}leave;}}}}", "nop;".repeat(674));
        }
        table(&s)
    };
    let exact = of(4, 4);
    for room in [65_536, 70_000] {
        assert_eq!(written(&exact, room).map(|text| text.len()), Ok(65_536));
    }
    assert_eq!(written(&exact, 65_535), Err((32, 0)));
    let longer = of(4, 5);
    for room in [0, 65_536, 65_537, 100_000] {
        assert_eq!(written(&longer, room), Err((33, 0)));
    }
    let mut broken = longer.clone();
    broken[1] = 2;
    assert_eq!(written(&broken, 0), Err((9, 0)));
}
