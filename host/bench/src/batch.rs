//! A thousand new files of one page on a volume with seven thousand: the calls that make them, as one list of steps and one by one.

use crate::disk::Disk;
use crate::volumes::{file_name, user_name, KIND, LARGE_VOLUME};
use proved::{call, Reply, Step, PAGE};

/// The files that are there, and those that are made, on the large volume; a smaller one has as many fewer.
const OLD: u32 = 7_000;
const NEW: u32 = 1_000;

/// The files of a user, and the pages that one of them holds: data page and index block.
const EACH: u32 = 250;
const HELD: u32 = 2;

/// The calls that make a file: create, grow, write.
pub const CALLS_OF_A_FILE: u32 = 3;

pub struct Batch {
    pub words: Vec<u16>,
    pub old: u32,
    pub new: u32,
    /// The first of the users who make files.
    first: u32,
    names: Vec<Vec<u8>>,
    data: Vec<u16>,
    /// The same as steps, with the text that they name parts of.
    steps: Vec<Step>,
    text: Vec<u8>,
}

impl Batch {
    pub fn new(pages: u32) -> Batch {
        let [old, new] = [OLD, NEW].map(|files| files * pages / LARGE_VOLUME);
        let first = old.div_ceil(EACH);
        let names: Vec<Vec<u8>> = (0..new).map(|n| format!("NEW{n}").into_bytes()).collect();
        let data = (0..new as usize * PAGE).map(|n| (n % 65_521) as u16).collect();
        let (steps, text) = steps(first, &names);
        Batch {
            words: volume(pages, old, new),
            old,
            new,
            first,
            names,
            data,
            steps,
            text,
        }
    }

    /// The number of calls.
    pub fn calls(&self) -> usize {
        self.steps.len()
    }

    /// All files by one run; gives its replies.
    pub fn by_run(&self, image: &mut [u16]) -> Vec<Reply> {
        let mut replies = vec![Reply::default(); self.steps.len()];
        let made = proved::run(image, &self.steps, &self.text, &self.data, &mut [], &mut replies);
        replies.truncate(made);
        replies
    }

    /// All files by single calls; gives their replies.
    pub fn by_single_calls(&self, image: &mut [u16]) -> Vec<Reply> {
        let mut replies = Vec::with_capacity(self.steps.len());
        for (n, (name, page)) in (0..).zip(self.names.iter().zip(self.data.chunks_exact(PAGE))) {
            let [user, file] = place(self.first, n).map(|number| number as usize);
            replies.push(proved::create_indexed(image, user, name, KIND, n));
            replies.push(proved::grow(image, user, file));
            replies.push(proved::write_page(image, user, file, 0, page));
        }
        replies
    }
}

/// The user and the index of the n-th new file.
fn place(first: u32, n: u32) -> [u32; 2] {
    [first + n / EACH, n % EACH]
}

/// The volume with its old files, and its makers of files with as many pages given as they need.
fn volume(pages: u32, old: u32, new: u32) -> Vec<u16> {
    let (first, makers) = (old.div_ceil(EACH), new.div_ceil(EACH));
    let names: Vec<Vec<u8>> = (0..first + makers).map(user_name).collect();
    let mut disk = Disk::new(pages, b"BATCH", &names);
    (0..old).for_each(|n| disk.indexed(n / EACH, n % EACH, &file_name(n), KIND, 1));
    let mut words = disk.finish(0, 0);
    for maker in 0..makers {
        let files = EACH.min(new - EACH * maker);
        let given = second::give(&mut words, (first + maker) as usize, (HELD * files) as usize);
        assert_eq!(given.number, 0, "a volume has room for its new files");
    }
    words
}

/// Three steps for each file, and the text with their names and their type.
fn steps(first: u32, names: &[Vec<u8>]) -> (Vec<Step>, Vec<u8>) {
    let (mut steps, mut text) = (Vec::new(), KIND.to_vec());
    for (n, name) in (0..).zip(names) {
        let [user, file] = place(first, n);
        let of = |call: u32| Step {
            call,
            user,
            file,
            ..Step::default()
        };
        let (name_at, name_bytes) = (text.len() as u32, name.len() as u32);
        text.extend_from_slice(name);
        steps.push(Step {
            created: n,
            name_at,
            name_bytes,
            type_bytes: KIND.len() as u32,
            ..of(call::CREATE_INDEXED)
        });
        steps.push(of(call::GROW));
        steps.push(Step {
            data_at: n * PAGE as u32,
            ..of(call::WRITE_PAGE)
        });
    }
    (steps, text)
}

#[cfg(test)]
mod tests {
    use super::*;

    /// The run and the single calls do the same, and every call is done.
    #[test]
    fn a_batch_by_both_ways() {
        let batch = Batch::new(1_000);
        let (mut by_run, mut by_calls) = (batch.words.clone(), batch.words.clone());
        let replies = batch.by_run(&mut by_run);
        assert_eq!(
            (replies.len(), batch.calls()),
            ((CALLS_OF_A_FILE * batch.new) as usize, replies.len())
        );
        assert!(replies.iter().all(|reply| reply.number == 0));
        assert_eq!(replies, batch.by_single_calls(&mut by_calls));
        assert!(by_run == by_calls && by_run != batch.words);
    }
}
