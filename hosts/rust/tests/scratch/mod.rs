//! Scratch that is filled before a check with a pattern that is nowhere 0, and looked at afterwards.
use ponybluster::Reply;

pub struct Scratch {
    pub words: Vec<u32>,
}

fn pattern(at: usize) -> u32 {
    at as u32 % 1_000_003 * 4001 + 1
}

impl Scratch {
    pub fn new(length: usize) -> Scratch {
        Scratch {
            words: (0..length).map(pattern).collect(),
        }
    }

    /// Untouched on kinds 1 to 3; else the words needed are 0 and those beyond are untouched.
    pub fn is_as_promised(&self, image: &[u32], budget: u32, reply: Reply) -> bool {
        let cleared = if (1..=3).contains(&reply.kind) {
            0
        } else {
            let rows: usize = (0..9).map(|table| image[2 + 2 * table] as usize).sum();
            8 * budget as usize + 16 * rows + 4096
        };
        let wanted = |at| if at < cleared { 0 } else { pattern(at) };
        self.words
            .iter()
            .enumerate()
            .all(|(at, word)| *word == wanted(at))
    }
}
