//! Drives the supplied files of apollo-compiler 1.33.0 over packed images. SHIM: every file of this folder is written by hand; build.sh copies
//! the crate's own beside them.
//!
//! Reads cases as the program `replay` does (little-endian words: 0, work, scratch, n, n words; budget and scratch are passed over) and
//! prints a JSON list for each: the diagnostics of the crate's functions called one by one, as [kind, operation, a, b]; the crate's words for
//! diagnostics that no kind stands for; the same two by the crate's own way through the document, null where the document agrees with no
//! schema; for each selection the least row that is one field with it; and the first conflict of each operation that has one, by its functions.
#![allow(dead_code, unused_imports, unused_macros, clippy::all)]

// `use apollo_parser::LimitTracker` of validation/selection.rs resolves here.
extern crate self as apollo_parser;

/// The crate's macro adds `serialize()` and `Display`; nothing here needs them.
macro_rules! serialize_method {
    () => {};
}

mod ast;
mod collections;
mod coordinate;
mod diagnostic;
mod drive;
mod executable;
mod image;
mod introspection;
mod limit;
mod name;
mod node;
mod parser;
mod request;
mod response;
mod schema;
mod validation;

pub use crate::executable::ExecutableDocument;
pub use crate::limit::LimitTracker;
pub use crate::name::Name;
pub use crate::node::Node;
pub use crate::schema::Schema;
use std::io::{BufWriter, Read, Write};

fn words(input: &mut impl Read, n: usize) -> Option<Vec<u32>> {
    let mut bytes = vec![0; 4 * n];
    input.read_exact(&mut bytes).ok()?;
    Some(bytes.chunks_exact(4).map(|b| u32::from_le_bytes(b.try_into().unwrap())).collect())
}

fn shown(said: &drive::Said) -> String {
    let kinds: Vec<[u32; 4]> = said.kinds.iter().copied().collect();
    let others: Vec<&str> = said.others.iter().copied().collect();
    format!("{kinds:?}, {others:?}")
}

fn line(image: &[u32]) -> String {
    let read = image::read(image);
    let whole = if read.whole { shown(&drive::whole(&read)) } else { "null, null".to_string() };
    let class = drive::classes(&read, image[12] as usize);
    let said = drive::by_function(&read);
    let first: Vec<[u32; 4]> = said.first.values().copied().collect();
    format!("[{}, {whole}, {class:?}, {first:?}]", shown(&said))
}

fn main() {
    // Deep documents go down deep: the crate's recursion and the freeing of nodes.
    let run = || {
        let mut input = std::io::stdin().lock();
        let mut out = BufWriter::new(std::io::stdout().lock());
        while let Some(head) = words(&mut input, 4) {
            let Some(image) = words(&mut input, head[3] as usize) else { break };
            writeln!(out, "{}", line(&image)).unwrap();
        }
    };
    std::thread::Builder::new().stack_size(1 << 30).spawn(run).unwrap().join().unwrap();
}
