//! The verified library and the plain implementation behind one interface: an answer, and what was lent as it is afterwards.

use ial::raw as c;
use ial_baseline::{Answer, Refusal};

const _: () = assert!(ial::TABLE == ial_baseline::TABLE);

fn answer(a: c::Answer) -> Answer {
    Answer { number: a.number, place: a.place, value: a.value, steps: a.steps }
}

fn done(r: Result<(), Refusal>) -> Answer {
    r.map_or_else(Answer::from, |()| Answer::default())
}

/// Two outputs that held the same before a call hold the same after it, beside the same answer.
fn agree<T: PartialEq>(what: &str, verified: (Answer, &[T]), plain: (Answer, &[T])) -> Result<Answer, String> {
    if verified.0 != plain.0 {
        return Err(format!("{what}: verified {:?}, plain {:?}", verified.0, plain.0));
    }
    if verified.1 == plain.1 {
        return Ok(verified.0);
    }
    let k = (0..verified.1.len()).find(|&k| verified.1[k] != plain.1[k]);
    Err(format!("{what}: {:?}, but lent cell {} differs", verified.0, k.unwrap()))
}

/// Each call takes outputs that hold rubbish, the same for both. Pointers and lengths are those of live slices.
pub fn read(text: &[u8], out: &mut [u8], other: &mut [u8]) -> Result<Answer, String> {
    let a = answer(unsafe { c::ial_read(text.as_ptr(), text.len(), out.as_mut_ptr(), out.len()) });
    let b = done(ial_baseline::read(text, other));
    agree("read", (a, out), (b, other))
}

pub fn check(table: &[u8]) -> Result<Answer, String> {
    let a = answer(unsafe { c::ial_check(table.as_ptr(), table.len()) });
    agree::<u8>("check", (a, &[]), (done(ial_baseline::check(table)), &[]))
}

pub fn run(table: &[u8], f: u64, args: &[u64], budget: u64, g: &mut [u64], h: &mut [u64]) -> Result<Answer, String> {
    let a = answer(unsafe {
        c::ial_run(table.as_ptr(), table.len(), f, args.as_ptr(), args.len(), budget, g.as_mut_ptr(), g.len())
    });
    let b = ial_baseline::run(table, f, args, budget, h).into();
    agree("run", (a, g), (b, h))
}

/// Runs on each argument alone, against the plain implementation's runs one after the other; the registers are zeroed.
pub fn run_each(table: &[u8], f: u64, args: &[u64], budget: u64, g: &mut [u64]) -> Result<Answer, String> {
    let mut plain = Vec::new();
    for a in args {
        let b: Answer = ial_baseline::run(table, f, &[*a], budget, &mut g.to_vec()).into();
        plain.extend([b.number, b.place, b.value, b.steps]);
    }
    let mut out = vec![7; plain.len()];
    let a = answer(unsafe {
        c::ial_run_each(table.as_ptr(), table.len(), f, args.as_ptr(), args.len(), budget, g.as_mut_ptr(), g.len(), out.as_mut_ptr(), out.len())
    });
    agree("run each", (a, &*out), (Answer::default(), &*plain))?;
    agree("run each", (a, &*g), (a, &*vec![0; g.len()]))
}

pub fn translate(table: &[u8], f: u64, out: &mut [u8], other: &mut [u8]) -> Result<Answer, String> {
    let a = answer(unsafe { c::ial_translate(table.as_ptr(), table.len(), f, out.as_mut_ptr(), out.len()) });
    let b = done(ial_baseline::translate(table, f, other));
    agree("translate", (a, out), (b, other))
}

pub fn write(table: &[u8], out: &mut [u8], other: &mut [u8]) -> Result<Answer, String> {
    let a = answer(unsafe { c::ial_write(table.as_ptr(), table.len(), out.as_mut_ptr(), out.len()) });
    let b = ial_baseline::write(table, other).map_or_else(Answer::from, |n| Answer { value: n as u64, ..Answer::default() });
    agree("write", (a, out), (b, other))
}
