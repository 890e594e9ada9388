//! Damaged copies of a small image: every one gets a reply, the same one twice and by both forms, and the scratch is as promised.
mod scratch;

use ponybluster::{check, check_words, scratch_needed, Reply};
use scratch::Scratch;

const NONE: u32 = u32::MAX;
const BUDGET: u32 = 1000;
const PRIMER: &[u8] = include_bytes!("../../../examples/primer.img");

fn primer() -> Vec<u32> {
    PRIMER
        .chunks_exact(4)
        .map(|b| u32::from_le_bytes([b[0], b[1], b[2], b[3]]))
        .collect()
}

/// The reply to these words, once all that must agree does.
fn reply_to(words: &[u32]) -> Reply {
    let bytes: Vec<u8> = words.iter().flat_map(|w| w.to_le_bytes()).collect();
    let reply = check(&bytes, BUDGET);
    assert_eq!(check(&bytes, BUDGET), reply);
    let mut filled = Scratch::new(16_384);
    assert_eq!(check_words(words, BUDGET, &mut filled.words), reply);
    assert!(filled.is_as_promised(words, BUDGET, reply));
    let mut zeros = vec![0; 16_384];
    assert_eq!(check_words(words, BUDGET, &mut zeros), reply);
    reply
}

#[test]
fn whole() {
    let reply = reply_to(&primer());
    assert_eq!(
        reply,
        Reply {
            kind: 16,
            operation: 0,
            a: 8,
            b: 3,
            used: 23
        }
    );
}

#[test]
fn a_word_changed() {
    let whole = primer();
    for at in 0..whole.len() {
        for word in [
            0,
            1,
            NONE,
            whole[at].wrapping_add(1),
            whole[at].wrapping_sub(1),
        ] {
            let mut words = whole.clone();
            words[at] = word;
            let reply = reply_to(&words);
            assert!(reply.kind <= 17, "word {at} changed to {word}: {reply:?}");
            if at < 20 && word != whole[at] {
                assert_eq!(reply.kind, 1, "header word {at} changed to {word}");
            }
        }
    }
}

#[test]
fn cut_short() {
    for length in 0..PRIMER.len() {
        let reply = check(&PRIMER[..length], BUDGET);
        let (kind, a) = if length % 4 != 0 {
            (18, length)
        } else if length < 80 {
            (1, length / 4)
        } else {
            (1, 1)
        };
        assert_eq!(
            reply,
            Reply {
                kind,
                operation: 0,
                a: a as u32,
                b: 0,
                used: 0
            }
        );
    }
}

#[test]
fn scratch_that_just_suffices() {
    let words = primer();
    let needed = scratch_needed(&words, BUDGET);
    assert_eq!(needed, 8 * 1000 + 16 * 44 + 4096);
    let mut scratch = Scratch::new(needed);
    assert_eq!(check_words(&words, BUDGET, &mut scratch.words).kind, 16);
    let mut short = Scratch::new(needed - 1);
    let reply = check_words(&words, BUDGET, &mut short.words);
    assert_eq!(
        reply,
        Reply {
            kind: 3,
            operation: 0,
            a: needed as u32,
            b: 0,
            used: 0
        }
    );
    assert!(short.is_as_promised(&words, BUDGET, reply));
}
