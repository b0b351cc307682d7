//! The words of an image in a file, the high byte first: read, compared and written in chunks that stay in the processor's cache, and a large
//! image by several threads, so that no second copy of its bytes is in memory. Long parts of zeros take neither memory nor room in a file.

use std::fs::File;
use std::io::{self, Read};
use std::ops::Range;
use std::os::fd::AsRawFd;
use std::os::unix::fs::FileExt;
use std::sync::mpsc;
use std::thread;

/// The words of a chunk.
const CHUNK: usize = 128 * 1024;

/// So many words of a chunk are looked at before it is taken for one of zeros.
const GLANCE: usize = 2 * 1024;

/// So many words of zeros are left out of a file: a hole. Smaller ones would cost more in the file system's lists than they save.
const HOLE: usize = 32 * 1024;

/// A thread of its own is worth its start from so many words on.
const PART: usize = 8 * CHUNK;

/// Fills the words, which are zeros, with the file's words from that one on. Where the file has a chunk of zeros they are not touched, and the
/// system gives no memory for them. A file that is too short is an error.
pub fn read(file: &File, from: usize, words: &mut [u16]) -> io::Result<()> {
    let length = share(words.len());
    in_parts(words.chunks_mut(length), |number, words| {
        let mut buffer = buffer(words.len());
        for (chunk, words) in words.chunks_mut(CHUNK).enumerate() {
            read_chunk(file, from + number * length + chunk * CHUNK, words, &mut buffer)?;
        }
        Ok(true)
    })
    .map(drop)
}

/// The same from the file's first word on, with a copy that is made of what is in the processor's cache.
pub fn read_twice(file: &File, words: &mut [u16], copy: &mut [u16]) -> io::Result<()> {
    let length = share(words.len());
    in_parts(words.chunks_mut(length).zip(copy.chunks_mut(length)), |number, (words, copy)| {
        let mut buffer = buffer(words.len());
        for (chunk, (words, copy)) in words.chunks_mut(CHUNK).zip(copy.chunks_mut(CHUNK)).enumerate() {
            if read_chunk(file, number * length + chunk * CHUNK, words, &mut buffer)? {
                copy.copy_from_slice(words);
            }
        }
        Ok(true)
    })
    .map(drop)
}

/// Reads a chunk, unless it has zeros alone; whether it has not.
fn read_chunk(file: &File, from: usize, words: &mut [u16], buffer: &mut [u16]) -> io::Result<bool> {
    if is_hole(file, from, words.len())? {
        return Ok(false);
    }
    let (glance, rest) = buffer[..words.len()].split_at_mut(GLANCE.min(words.len()));
    file.read_exact_at(memory(glance), place(from))?;
    if zeros(glance) {
        file.read_exact_at(memory(rest), place(from + glance.len()))?;
        if zeros(rest) {
            return Ok(false);
        }
    }
    file.read_exact_at(memory(words), place(from))?;
    words.iter_mut().for_each(|word| *word = u16::from_be(*word));
    Ok(true)
}

/// Whether the file has a hole in the place of so many words from that one on: nothing was ever written there, and zeros are read.
fn is_hole(file: &File, from: usize, count: usize) -> io::Result<bool> {
    let end = place(from + count);
    let next = unsafe { libc::lseek(file.as_raw_fd(), place(from) as libc::off_t, libc::SEEK_DATA) };
    match next {
        // Nothing is written from there on; that may be so for want of a file.
        -1 => Ok(io::Error::last_os_error().raw_os_error() == Some(libc::ENXIO) && file.metadata()?.len() >= end),
        written => Ok(written as u64 >= end),
    }
}

/// Whether the file begins with these words. A file that is too short is an error.
pub fn begins_with(file: &File, words: &[u16]) -> io::Result<bool> {
    let length = share(words.len());
    in_parts(words.chunks(length), |number, words| {
        let mut buffer = buffer(words.len());
        for (chunk, words) in words.chunks(CHUNK).enumerate() {
            let (from, there) = (number * length + chunk * CHUNK, &mut buffer[..words.len()]);
            let same = match is_hole(file, from, words.len())? {
                true => zeros(words),
                false => {
                    file.read_exact_at(memory(there), place(from))?;
                    same(there, words)
                }
            };
            if !same {
                return Ok(false);
            }
        }
        Ok(true)
    })
}

/// All words up to the end of a pipe, and whether a byte is left over. Of a longer one, so many words and the next chunk are read.
pub fn read_to_end(pipe: &mut impl Read, most: usize) -> io::Result<(Vec<u16>, bool)> {
    let (mut words, mut bytes) = (Vec::new(), Vec::with_capacity(2 * CHUNK));
    while words.len() <= most {
        bytes.clear();
        pipe.take(2 * CHUNK as u64).read_to_end(&mut bytes)?;
        words.extend(pairs(&bytes));
        if bytes.len() < 2 * CHUNK {
            break;
        }
    }
    Ok((words, bytes.len() % 2 == 1))
}

/// Writes the words into the file from that one on. Long parts of zeros are not written: where nothing is written a file reads as zeros.
pub fn write(file: &File, from: usize, words: &[u16]) -> io::Result<()> {
    let mut buffer = buffer(words.len());
    for (chunk, words) in words.chunks(CHUNK).enumerate() {
        for part in written(words) {
            let bytes = &mut buffer[..part.len()];
            bytes.iter_mut().zip(&words[part.clone()]).for_each(|(to, word)| *to = word.to_be());
            file.write_all_at(memory(bytes), place(from + chunk * CHUNK + part.start))?;
        }
    }
    Ok(())
}

/// What is written of a chunk: its parts that are not all zeros, those in a row together.
fn written(words: &[u16]) -> Vec<Range<usize>> {
    let mut parts: Vec<Range<usize>> = Vec::new();
    for (number, words) in words.chunks(HOLE).enumerate() {
        let (start, end) = (number * HOLE, number * HOLE + words.len());
        match parts.last_mut() {
            _ if zeros(words) => {}
            Some(last) if last.end == start => last.end = end,
            _ => parts.push(start..end),
        }
    }
    parts
}

/// Whether all are zeros. Some are looked at together, as this is quicker than one by one.
fn zeros(words: &[u16]) -> bool {
    words.chunks(256).all(|words| words.iter().fold(0, |bits, word| bits | word) == 0)
}

/// Whether words as a file has them are these. All are looked at, as this is quicker than to stop at the first that differs.
fn same(there: &[u16], words: &[u16]) -> bool {
    let differing = there
        .iter()
        .zip(words)
        .fold(0, |differing, (there, word)| differing | (u16::from_be(*there) ^ word));
    differing == 0
}

/// Bytes as words.
pub fn to_words(bytes: &[u8], words: &mut [u16]) {
    words.iter_mut().zip(pairs(bytes)).for_each(|(word, value)| *word = value);
}

/// Words as bytes.
pub fn to_bytes(words: &[u16], bytes: &mut [u8]) {
    for (pair, word) in bytes.chunks_exact_mut(2).zip(words) {
        pair.copy_from_slice(&word.to_be_bytes());
    }
}

/// The words of bytes, one after the other.
pub fn pairs(bytes: &[u8]) -> impl Iterator<Item = u16> + '_ {
    bytes.chunks_exact(2).map(|pair| u16::from_be_bytes([pair[0], pair[1]]))
}

/// Where a word's bytes begin.
fn place(word: usize) -> u64 {
    2 * word as u64
}

/// The bytes that words lie in.
fn memory(words: &mut [u16]) -> &mut [u8] {
    // Any two bytes are a word, and any word is two bytes.
    unsafe { words.align_to_mut() }.1
}

/// Room for a chunk of so many words at most.
fn buffer(words: usize) -> Vec<u16> {
    vec![0; words.min(CHUNK)]
}

/// The words of each thread's part: all, or whole chunks.
fn share(words: usize) -> usize {
    match words / PART {
        0 | 1 => words.max(1),
        most => {
            let threads = thread::available_parallelism().map_or(1, usize::from).min(most);
            words.div_ceil(threads).next_multiple_of(CHUNK)
        }
    }
}

/// Does the work on all parts, the first in this thread and when the others are there: a thread that starts takes memory for itself, and would wait
/// while this one's is filled. Whether all say yes.
fn in_parts<T: Send>(parts: impl Iterator<Item = T>, work: impl Fn(usize, T) -> io::Result<bool> + Sync) -> io::Result<bool> {
    let (work, (here, arrived)) = (&work, mpsc::channel());
    thread::scope(|scope| {
        let mut parts = parts.enumerate();
        let first = parts.next();
        let start = |(number, part)| {
            let here = here.clone();
            thread::Builder::new().spawn_scoped(scope, move || {
                let _ = here.send(());
                work(number, part)
            })
        };
        let others = parts.map(start).collect::<io::Result<Vec<_>>>()?;
        arrived.iter().take(others.len()).for_each(drop);
        let mut all = first.map_or(Ok(true), |(number, part)| work(number, part))?;
        for other in others {
            all &= other.join().unwrap_or_else(|panic| std::panic::resume_unwind(panic))?;
        }
        Ok(all)
    })
}

#[cfg(test)]
pub mod tests {
    use super::*;

    /// A file of these words that has no name.
    pub fn file(words: &[u16]) -> File {
        let path = std::env::temp_dir().join(format!("nord-words-{}-{:?}", std::process::id(), thread::current().id()));
        let file = File::options().read(true).write(true).create_new(true).open(&path).unwrap();
        std::fs::remove_file(path).unwrap();
        file.set_len(place(words.len())).unwrap();
        write(&file, 0, words).unwrap();
        file
    }

    /// So many words, each by its number.
    pub fn numbers(count: usize) -> Vec<u16> {
        (0..count).map(|number| (number ^ (number >> 16)) as u16).collect()
    }

    /// Lengths at the edges of chunks and parts.
    fn lengths() -> impl Iterator<Item = usize> {
        let edges = [CHUNK, PART, 2 * PART, 2 * PART + CHUNK, 5 * PART];
        [0, 1]
            .into_iter()
            .chain(edges.into_iter().flat_map(|edge| [edge - 1, edge, edge + 1]))
    }

    #[test]
    fn what_is_written_is_read_and_is_the_same() {
        for length in lengths() {
            let words = numbers(length);
            let file = file(&words);
            let mut read_again = vec![0; length];
            read(&file, 0, &mut read_again).unwrap();
            assert!(read_again == words, "{length} words");
            assert!(begins_with(&file, &words).unwrap(), "{length} words");
            assert!(read(&file, 0, &mut vec![0; length + 1]).is_err(), "{length} words and one more");
            read_again.fill(0);
            read(&file, length / 3, &mut read_again[length / 2..length / 2 + length / 3]).unwrap();
            assert!(
                read_again[length / 2..][..length / 3] == words[length / 3..][..length / 3],
                "{length} words"
            );
        }
    }

    #[test]
    fn the_high_byte_is_first() {
        let mut bytes = [0; 4];
        to_bytes(&[0x1234, 0x00ff], &mut bytes);
        assert_eq!(bytes, [0x12, 0x34, 0, 0xff]);
    }

    #[test]
    fn zeros_are_holes_and_one_word_among_them_is_written() {
        let mut words = vec![0; 3 * CHUNK];
        assert_eq!(written(&words), []);
        for place in [0, HOLE - 1, HOLE, CHUNK - 1, CHUNK, 3 * CHUNK - 1] {
            words[place] = 1;
            let [mut alone, mut again, mut copied] = [(); 3].map(|()| vec![0; words.len()]);
            let file = file(&words);
            read(&file, 0, &mut alone).unwrap();
            read_twice(&file, &mut again, &mut copied).unwrap();
            assert!(alone == words && again == words && copied == words, "word {place}");
        }
        assert_eq!(written(&words[..CHUNK]), [0..2 * HOLE, CHUNK - HOLE..CHUNK]);
        assert_eq!(written(&words[..HOLE + 5]).last(), Some(&(0..HOLE + 5)));
    }

    #[test]
    fn one_bit_in_any_part_is_seen() {
        let mut words = numbers(5 * PART + 3);
        let file = file(&words);
        for place in [0, CHUNK, PART - 1, 2 * PART, 3 * PART + 5, 5 * PART + 2] {
            words[place] ^= 0x100;
            assert!(!begins_with(&file, &words).unwrap(), "word {place}");
            words[place] ^= 0x100;
        }
    }

    #[test]
    fn a_pipe_is_read_to_its_end_and_not_for_ever() {
        for length in lengths() {
            let mut bytes = vec![0; 2 * length];
            to_bytes(&numbers(length), &mut bytes);
            assert!(
                read_to_end(&mut &bytes[..], 5 * PART + 1).unwrap() == (numbers(length), false),
                "{length}"
            );
            bytes.push(1);
            assert!(
                read_to_end(&mut &bytes[..], 5 * PART + 1).unwrap() == (numbers(length), true),
                "{length}"
            );
        }
        let (words, _) = read_to_end(&mut io::repeat(1), 3 * CHUNK).unwrap();
        assert!(words.len() > 3 * CHUNK && words.len() <= 4 * CHUNK, "{}", words.len());
    }
}
