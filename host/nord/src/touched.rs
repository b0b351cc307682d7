//! The words of a large image file for the proved check, which touches few of them where files are large: a part of the file is read when a word of
//! it is first touched. So the proved code itself decides what is read, and nothing beside it: the memory of the words is closed at first, the
//! system tells of a touch by a signal (`SIGSEGV`), and the part is read there and then. What was read once is not read again, so that no word
//! changes under the check. Touches in a row bring more and more at once, and after many of them the rest comes, by all cores.

use crate::chunks;
use libc::{c_int, c_void, sigaction, siginfo_t, sigset_t};
use memmap2::{Advice, MmapMut};
use std::cell::{Cell, RefCell};
use std::fs::File;
use std::ops::Range;
use std::sync::OnceLock;
use std::{io, mem, ptr, slice};

/// There may be one touch for so many words; then the rest is read, since a signal for each part would cost more.
const SPREAD: usize = 256 * 1024;

/// The words while they are looked at, by one thread.
struct Words<'a> {
    file: &'a File,
    start: *mut u16,
    count: usize,
    /// The words of a part: a page of the machine.
    part: usize,
    /// Which parts were read.
    read: RefCell<Vec<bool>>,
    /// The first part that the last touch has brought, and the one after its last.
    last: Cell<(usize, usize)>,
    /// How many touches may still bring less than all.
    left: Cell<usize>,
    failed: Cell<Option<io::Error>>,
}

thread_local! {
    /// The words that this thread looks at, while it does.
    static LOOKED_AT: Cell<*const Words<'static>> = const { Cell::new(ptr::null()) };
}

/// What the signal did before.
static BEFORE: OnceLock<Option<sigaction>> = OnceLock::new();

/// Does the work on the first words of the file: a call of the proved library, which touches them in this thread alone, holds nothing that reading
/// needs, and gives them to no call of the system. If any of them could not be read, its result goes with them.
pub fn look<T>(file: &File, count: usize, work: impl FnOnce(&[u16]) -> T) -> io::Result<T> {
    BEFORE.get_or_init(hear).ok_or(io::ErrorKind::Unsupported)?;
    let mut memory = MmapMut::map_anon(2 * count)?;
    let part = unsafe { libc::sysconf(libc::_SC_PAGESIZE) } as usize / 2;
    let words = Words {
        file,
        start: memory.as_mut_ptr().cast(),
        count,
        part,
        read: RefCell::new(vec![false; count.div_ceil(part)]),
        last: Cell::new((0, 0)),
        left: Cell::new(count / SPREAD),
        failed: Cell::new(None),
    };
    words.allow(0..count, libc::PROT_NONE)?;
    let result = {
        let _looking = Looking::at(&words);
        // The memory is there until the end of this function, and every word of it has its value before anyone has seen it.
        work(unsafe { slice::from_raw_parts(words.start, count) })
    };
    match words.failed.take() {
        Some(error) => Err(error),
        None => Ok(result),
    }
}

/// While this is there, the thread's touches read the words.
struct Looking;

impl Looking {
    fn at(words: &Words) -> Looking {
        LOOKED_AT.set(ptr::from_ref(words).cast());
        Looking
    }
}

impl Drop for Looking {
    fn drop(&mut self) {
        LOOKED_AT.set(ptr::null());
    }
}

impl Words<'_> {
    /// The number of the word that has this address, if it is one of these.
    fn number(&self, address: usize) -> Option<usize> {
        let number = address.checked_sub(self.start as usize)? / 2;
        (number < self.count).then_some(number)
    }

    /// Reads the part of a word and what comes with it; whether the word can be seen now.
    fn come(&self, number: usize) -> bool {
        let read = match self.left.get() {
            0 => self.all(),
            left => {
                self.left.set(left - 1);
                self.some(self.wanted(number / self.part))
            }
        };
        // Where it failed the result goes, but the work has to come to its end.
        read.or_else(|error| {
            self.failed.set(Some(error));
            self.allow(0..self.count, OPEN)
        })
        .is_ok()
    }

    /// The words that the touch of a part brings, none of which was read: that part, and twice as many as the last one where it follows them.
    fn wanted(&self, touched: usize) -> Range<usize> {
        let ((first, end), mut read) = (self.last.get(), self.read.borrow_mut());
        let most = if touched == end { 2 * (end - first).max(1) } else { 1 };
        let closed = read[touched..].iter_mut().take(most).take_while(|read| !**read);
        let parts = closed.map(|read| *read = true).count();
        self.last.set((touched, touched + parts));
        self.words_of(touched..touched + parts)
    }

    fn words_of(&self, parts: Range<usize>) -> Range<usize> {
        parts.start * self.part..self.count.min(parts.end * self.part)
    }

    /// Opens these words and reads them.
    fn some(&self, words: Range<usize>) -> io::Result<()> {
        self.allow(words.clone(), OPEN)?;
        // They are open now, none of them has been seen, and the work waits.
        let memory = unsafe { slice::from_raw_parts_mut(self.start.add(words.start), words.len()) };
        chunks::read(self.file, words.start, memory)
    }

    /// Reads all words into other memory, in large pages, and puts it in the place of this, with what was seen as it was seen.
    fn all(&self) -> io::Result<()> {
        let mut whole = MmapMut::map_anon(2 * self.count)?;
        let _ = whole.advise(Advice::HugePage);
        // Any two bytes are a word, and a mapping begins at a page of the machine.
        let words = unsafe { whole.align_to_mut::<u16>() }.1;
        chunks::read(self.file, 0, words)?;
        for (part, read) in self.read.borrow_mut().iter_mut().enumerate() {
            if mem::replace(read, true) {
                let seen = self.words_of(part..part + 1);
                // They are open since they were read.
                words[seen.clone()].copy_from_slice(unsafe { slice::from_raw_parts(self.start.add(seen.start), seen.len()) });
            }
        }
        self.become_of(whole)
    }

    /// Puts other memory, as long as this, in its place.
    fn become_of(&self, mut whole: MmapMut) -> io::Result<()> {
        let (from, bytes) = (whole.as_mut_ptr().cast::<c_void>(), 2 * self.count);
        let flags = libc::MREMAP_MAYMOVE | libc::MREMAP_FIXED;
        if unsafe { libc::mremap(from, bytes, bytes, flags, self.start.cast::<c_void>()) } == libc::MAP_FAILED {
            return Err(io::Error::last_os_error());
        }
        // Nothing is left where it was.
        mem::forget(whole);
        Ok(())
    }

    /// Says what may be done with the memory of words that begin where a page of the machine does.
    fn allow(&self, words: Range<usize>, rights: c_int) -> io::Result<()> {
        let memory = self.start.wrapping_add(words.start).cast::<c_void>();
        match unsafe { libc::mprotect(memory, 2 * words.len(), rights) } {
            0 => Ok(()),
            _ => Err(io::Error::last_os_error()),
        }
    }
}

const OPEN: c_int = libc::PROT_READ | libc::PROT_WRITE;

/// Takes over the signal, lets it come where who has started us holds it back, and gives what it did before.
fn hear() -> Option<sigaction> {
    // All fields are numbers, sets of numbers or no function.
    let (mut action, mut before, mut signals): (sigaction, sigaction, sigset_t) = unsafe { mem::zeroed() };
    action.sa_sigaction = touched as *const () as usize;
    action.sa_flags = libc::SA_SIGINFO;
    let done = unsafe {
        libc::sigaddset(&mut signals, libc::SIGSEGV);
        libc::sigaction(libc::SIGSEGV, &action, &mut before) == 0
            && libc::pthread_sigmask(libc::SIG_UNBLOCK, &signals, ptr::null_mut()) == 0
    };
    done.then_some(before)
}

/// Some memory was touched that is closed. Where it is that of the words, this runs in the midst of reading one of them and of nothing else, so it
/// may do what any function may. Any other touch does what it did before.
extern "C" fn touched(signal: c_int, info: *mut siginfo_t, _: *mut c_void) {
    let words = unsafe { LOOKED_AT.get().as_ref() };
    let address = unsafe { (*info).si_addr() } as usize;
    let came = words.is_some_and(|words| words.number(address).is_some_and(|number| words.come(number)));
    if !came {
        let before = BEFORE.get().and_then(Option::as_ref).map_or(ptr::null(), ptr::from_ref);
        unsafe { libc::sigaction(signal, before, ptr::null_mut()) };
    }
}

#[cfg(test)]
mod tests {
    use super::*;
    use crate::chunks::tests::{file, numbers};
    use crate::store;
    use std::hint::black_box;
    use std::os::unix::fs::FileExt;

    /// The parts of the words that this thread looks at, and how many of them were read.
    fn parts() -> (usize, usize) {
        let words = unsafe { &*LOOKED_AT.get() };
        let read = words.read.borrow().iter().filter(|read| **read).count();
        (words.part, read)
    }

    #[test]
    fn every_word_is_the_files_whichever_is_touched_first() {
        for count in [1, 2047, 2048, 2049, 32 * 1024 + 1, 3 * SPREAD + 7] {
            let wanted = numbers(count);
            let file = file(&wanted);
            assert!(look(&file, count, |words| words == wanted).unwrap(), "{count}");
            let backwards = |words: &[u16]| words.iter().rev().eq(wanted.iter().rev());
            assert!(look(&file, count, backwards).unwrap(), "{count}");
            let scattered = |words: &[u16]| (0..count).all(|k| words[k * 40_503 % count] == wanted[k * 40_503 % count]);
            assert!(look(&file, count, scattered).unwrap(), "{count}");
        }
    }

    #[test]
    fn a_touch_reads_one_part_touches_in_a_row_more_and_many_all() {
        let count = 8 * SPREAD;
        let file = file(&numbers(count));
        look(&file, count, |words| {
            let (part, _) = parts();
            let touch = |number: usize, read: usize| {
                assert_eq!(black_box(words)[number], (number ^ (number >> 16)) as u16);
                assert_eq!(parts().1, read, "after word {number}");
            };
            touch(9 * part + 3, 1);
            touch(10 * part - 1, 1);
            touch(10 * part, 3);
            touch(12 * part, 7);
            touch(count - 1, 8);
            touch(0, 9);
            touch(5 * part, 10);
            touch(7 * part, 11);
            touch(8 * part, 12);
            touch(30 * part, count / part);
        })
        .unwrap();
    }

    #[test]
    fn what_was_read_is_not_read_again() {
        let count = 4 * SPREAD;
        let (wanted, file) = (numbers(count), file(&numbers(count)));
        look(&file, count, |words| {
            let (part, _) = parts();
            let seen = [5 * part + 3, count - 1].map(|number| black_box(words[number]));
            assert_eq!(seen, [wanted[5 * part + 3], wanted[count - 1]]);
            file.write_all_at(&store::bytes(&vec![7; count]), 0).unwrap();
            assert_eq!(black_box(words).iter().filter(|word| **word == 7).count(), count - 2 * part);
            assert!(words[5 * part..6 * part] == wanted[5 * part..6 * part]);
        })
        .unwrap();
    }

    #[test]
    fn what_cannot_be_read_is_an_error() {
        let count = 2 * SPREAD;
        let file = file(&numbers(count));
        file.set_len(SPREAD as u64).unwrap();
        assert_eq!(look(&file, count, |words| words[0]).unwrap(), 0);
        let error = look(&file, count, |words| words[count - 1]).unwrap_err();
        assert_eq!(error.kind(), io::ErrorKind::UnexpectedEof);
        assert!(look(&file, count, |words| words.iter().map(|word| u64::from(*word)).sum::<u64>()).is_err());
    }
}
