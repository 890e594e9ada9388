//! Lengths, reply lengths and budgets at their edges.
use ponybluster::exported::{check_query, check_query_lent};
use ponybluster::{check, check_words, Reply, STACK, STACK_LENT};

const PRIMER: &[u8] = include_bytes!("../../../examples/primer.img");

fn shows(kind: u32, a: u32) -> Reply {
    Reply {
        kind,
        operation: 0,
        a,
        b: 0,
        used: 0,
    }
}

#[test]
fn image_lengths() {
    let zeros = vec![0; 65_536];
    for (length, reply) in [
        (0, shows(1, 0)),
        (1, shows(18, 1)),
        (2, shows(18, 2)),
        (3, shows(18, 3)),
        (4, shows(1, 1)),
        (76, shows(1, 19)),
        (80, shows(1, 0)),
        (32_764, shows(1, 0)),
        (32_768, shows(1, 0)),
        (32_769, shows(18, 32_769)),
        (32_772, shows(18, 32_772)),
        (65_536, shows(18, 65_536)),
    ] {
        assert_eq!(check(&zeros[..length], 1000), reply, "{length} bytes");
    }
}

#[test]
fn budgets() {
    for (budget, reply) in [
        (0, shows(17, 0)),
        (1536, shows(3, 8 * 1536 + 16 * 44 + 4096)),
        (1_000_000, shows(3, 8 * 1_000_000 + 16 * 44 + 4096)),
        (1_000_001, shows(2, 1_000_001)),
        (u32::MAX, shows(2, u32::MAX)),
    ] {
        assert_eq!(check(PRIMER, budget), reply, "budget {budget}");
    }
}

#[test]
fn bad_length_comes_before_bad_budget() {
    assert_eq!(check(&PRIMER[..7], u32::MAX), shows(18, 7));
    assert_eq!(check(&[], u32::MAX), shows(1, 0));
}

#[test]
fn reply_of_another_length() {
    for length in (0..40).filter(|n| *n != 20) {
        let mut reply = vec![170u8; 40];
        let returned = unsafe {
            check_query(
                PRIMER.as_ptr(),
                PRIMER.len(),
                1000,
                reply.as_mut_ptr(),
                length,
            )
        };
        assert_eq!(returned, 0, "{length} bytes");
        assert!(reply.iter().all(|b| *b == 170), "{length} bytes");
    }
}

#[test]
fn reply_of_the_right_length() {
    let mut reply = [170u8; 24];
    let returned = unsafe {
        check_query(
            PRIMER.as_ptr(),
            PRIMER.len(),
            1000,
            reply.as_mut_ptr().wrapping_add(2),
            20,
        )
    };
    assert_eq!(returned, 1);
    assert_eq!(
        reply,
        [170, 170, 16, 0, 0, 0, 0, 0, 0, 0, 8, 0, 0, 0, 3, 0, 0, 0, 23, 0, 0, 0, 170, 170]
    );
}

#[test]
fn lent_reply_of_another_length() {
    let words: Vec<u32> = PRIMER
        .chunks_exact(4)
        .map(|b| u32::from_le_bytes([b[0], b[1], b[2], b[3]]))
        .collect();
    for length in (0..10).filter(|n| *n != 5) {
        let mut scratch = vec![7u32; 16_384];
        let mut reply = [170u32; 10];
        let returned = unsafe {
            let (room, out) = (scratch.as_mut_ptr(), reply.as_mut_ptr());
            check_query_lent(words.as_ptr(), words.len(), 1000, room, 16_384, out, length)
        };
        assert_eq!(returned, 0, "{length} words");
        assert!(reply.iter().all(|w| *w == 170), "{length} words");
        assert!(scratch.iter().all(|w| *w == 7), "{length} words");
    }
}

/// So many fields in each other, each below an object; the innermost is a leaf.
fn nested(fields: u32) -> Vec<u32> {
    let (sets, none) = (fields + 1, u32::MAX);
    let [set_rows, selection_rows] = [32, 32 + 3 * sets];
    let end = selection_rows + 9 * sets;
    let mut words = vec![1, end, 2, 20, 2, 24, 1, 28, 0, 32];
    words.extend([sets, set_rows, sets, selection_rows, 0, end, 0, end, 0, end]);
    words.extend([1, 0, 2, 1, 0, 0, 0, 1, 0, 0, 0, 0]);
    words.extend((0..sets).flat_map(|i| [1, i, 1]));
    words.extend((1..sets).flat_map(|i| [0, 3, 3, 1, 0, 0, i, 0, 0]));
    words.extend([0, 3, 3, 0, 0, 0, none, 0, 0]);
    words
}

#[test]
fn deep_images_on_the_documented_stack() {
    let on = |size| std::thread::Builder::new().stack_size(size);
    let words = nested(128);
    let bytes: Vec<u8> = words.iter().flat_map(|w| w.to_le_bytes()).collect();
    let passes = Reply {
        used: 516,
        ..shows(0, 0)
    };
    let door = on(STACK).spawn(move || check(&bytes, 1000)).unwrap();
    assert_eq!(door.join().unwrap(), passes);
    let mut scratch = vec![0; 65_536];
    let lent = on(STACK_LENT).spawn(move || check_words(&words, 1000, &mut scratch));
    assert_eq!(lent.unwrap().join().unwrap(), passes);
}
