//! The door and the lent form against stored cases of all kinds, which tools/store_host_cases.py writes.
mod scratch;

use ponybluster::{check, check_words, Reply};
use scratch::Scratch;

/// The numbers of tests/cases.bin, one after the other.
struct Numbers<'a> {
    bytes: &'a [u8],
}

impl Numbers<'_> {
    fn next(&mut self) -> u32 {
        let mut number = 0u64;
        let mut shift = 0;
        loop {
            let byte = self.bytes[0];
            self.bytes = &self.bytes[1..];
            number += u64::from(byte % 128) << shift;
            shift += 7;
            if byte < 128 {
                return (number as u32).wrapping_sub(1);
            }
        }
    }

    fn take(&mut self, n: usize) -> Vec<u32> {
        (0..n).map(|_| self.next()).collect()
    }
}

enum Image {
    Bytes(Vec<u8>),
    Words(Vec<u32>, usize),
}

struct Case {
    image: Image,
    budget: u32,
    reply: Reply,
}

fn cases() -> Vec<Case> {
    let mut numbers = Numbers {
        bytes: include_bytes!("cases.bin"),
    };
    let mut out = Vec::new();
    while !numbers.bytes.is_empty() {
        let [form, budget, scratch, kind, operation, a, b, used, n] =
            std::array::from_fn(|_| numbers.next());
        let image = if form == 0 {
            let words = numbers.take(n as usize / 4);
            let rest = numbers.take(n as usize % 4);
            let mut bytes: Vec<u8> = words.iter().flat_map(|w| w.to_le_bytes()).collect();
            bytes.extend(rest.iter().map(|b| *b as u8));
            Image::Bytes(bytes)
        } else {
            Image::Words(numbers.take(n as usize), scratch as usize)
        };
        out.push(Case {
            image,
            budget,
            reply: Reply {
                kind,
                operation,
                a,
                b,
                used,
            },
        });
    }
    out
}

#[test]
fn stored_cases_are_of_all_kinds() {
    let cases = cases();
    for kind in 0..=18 {
        assert!(cases.iter().any(|c| c.reply.kind == kind), "kind {kind}");
    }
}

#[test]
fn replies_are_the_stored_ones() {
    for (i, case) in cases().iter().enumerate() {
        match &case.image {
            Image::Bytes(bytes) => assert_eq!(check(bytes, case.budget), case.reply, "case {i}"),
            Image::Words(words, length) => {
                let mut scratch = Scratch::new(*length);
                assert_eq!(
                    check_words(words, case.budget, &mut scratch.words),
                    case.reply,
                    "case {i}"
                );
                assert!(
                    scratch.is_as_promised(words, case.budget, case.reply),
                    "scratch of case {i}"
                );
            }
        }
    }
}

#[test]
fn both_forms_agree() {
    for (i, case) in cases().iter().enumerate() {
        let words = match &case.image {
            Image::Bytes(_) => continue,
            Image::Words(words, _) => words,
        };
        let bytes: Vec<u8> = words.iter().flat_map(|w| w.to_le_bytes()).collect();
        let reply = check(&bytes, case.budget);
        if bytes.len() <= 32_768 {
            let mut scratch = Scratch::new(16_384);
            assert_eq!(
                check_words(words, case.budget, &mut scratch.words),
                reply,
                "case {i}"
            );
        } else {
            assert_eq!(
                reply,
                Reply {
                    kind: 18,
                    operation: 0,
                    a: bytes.len() as u32,
                    b: 0,
                    used: 0
                },
                "case {i}"
            );
        }
    }
}
