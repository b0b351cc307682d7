//! What the program does as its own child: one process that checks or salvages a file, or that asks one call so often under callgrind.

use crate::calls::{ask, Call, Program};
use crate::scratch::{map_native, map_private, map_shared, question_of, read_house, words, words_mut};
use crate::stale::list;
use std::hint::black_box;
use std::io;
use std::path::Path;

/// The most calls of `once`.
pub const COPIES: usize = 11;

/// Reads an image in the house's byte order, checks it, and tells the number.
pub fn check_file(image: &Path) -> io::Result<u32> {
    Ok(proved::check(&read_house(image)?).number)
}

/// Maps an image in this machine's byte order, checks it, and tells the number.
pub fn check_mapped(image: &Path) -> io::Result<u32> {
    Ok(proved::check(words(&map_native(image)?)).number)
}

/// Maps an image in this machine's byte order, salvages it in place, waits until what has changed is on the disk, and tells the number.
pub fn salvage_mapped(image: &Path) -> io::Result<u32> {
    let mut map = map_shared(image)?;
    let words = words_mut(&mut map);
    let mut list = list(words);
    let number = proved::salvage(words, &mut list).number;
    map.flush()?;
    Ok(number)
}

/// Asks one call so many times, each time of a fresh private mapping. Always maps as many, so that two counts differ by the calls alone.
pub fn once(call: Call, image: &Path, program: Program, times: usize) -> io::Result<()> {
    let question = question_of(image)?;
    let mut copies = (0..COPIES).map(|_| map_private(image)).collect::<io::Result<Vec<_>>>()?;
    for copy in copies.iter_mut().take(times) {
        black_box(ask(program, call, black_box(words_mut(copy)), &question));
    }
    Ok(())
}
