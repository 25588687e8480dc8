//! Where the outside vectors are, and how their expected answers are read: those in vectors/, or in the folder that IAL_VECTORS names.

use std::path::{Path, PathBuf};

fn folder() -> PathBuf {
    let own = Path::new(env!("CARGO_MANIFEST_DIR")).join("../vectors");
    std::env::var_os("IAL_VECTORS").map_or(own, PathBuf::from)
}

/// The rest of an expected answer.
pub struct Expected<'a>(pub &'a [u8]);

impl<'a> Expected<'a> {
    pub fn line(&mut self) -> &'a str {
        let length = self.0.iter().position(|&byte| byte == b'\n').expect("a line ends");
        let line = std::str::from_utf8(&self.0[..length]).expect("a line of text");
        self.0 = &self.0[length + 1..];
        line
    }

    // Not every folder's answers have such a part.
    #[allow(dead_code)]
    pub fn bytes(&mut self, count: usize) -> &'a [u8] {
        let (bytes, rest) = self.0.split_at(count);
        self.0 = rest;
        bytes
    }
}

/// Tries each text of a folder of vectors with its expected answer; `vector` panics where they differ, and counts what it compared.
pub fn all(part: &str, vector: impl Fn(&[u8], &[u8]) -> usize + std::panic::RefUnwindSafe) {
    let mut paths: Vec<PathBuf> = std::fs::read_dir(folder().join(part)).unwrap().map(|entry| entry.unwrap().path()).collect();
    paths.retain(|path| path.extension().is_some_and(|extension| extension == "ial"));
    paths.sort();
    let mut failed = Vec::new();
    let mut compared = 0;
    for path in &paths {
        let text = std::fs::read(path).unwrap();
        let expected = std::fs::read(path.with_extension("expect")).unwrap();
        match std::panic::catch_unwind(|| vector(&text, &expected)) {
            Ok(lines) => compared += lines,
            Err(_) => failed.push(path.file_name().unwrap().to_owned()),
        }
    }
    println!("{} vectors, {compared} lines compared", paths.len());
    assert!(failed.is_empty() && !paths.is_empty(), "vectors that differ: {failed:?}");
}
