//! Times and instructions of two builds' checks.

use crate::clock;
use crate::library::{Library, Told};
use bench::callgrind;
use bench::scratch::{map_native, words};
use bench::timing::{race, Effort, Side, Spread, QUICK};
use bench::volumes::{Volume, LARGE_VOLUME};
use std::hint::black_box;
use std::io;
use std::path::Path;

/// How large a run is.
pub struct Plan {
    pub effort: Effort,
    /// Pages of the large volumes.
    pub large: u32,
}

impl Plan {
    pub fn thorough() -> Plan {
        let effort = Effort {
            rounds: 101,
            seconds: 1.0,
            sample: 0.001,
        };
        Plan {
            effort,
            large: LARGE_VOLUME,
        }
    }

    /// Only sees that everything works.
    pub fn quick() -> Plan {
        Plan {
            effort: QUICK,
            large: 2_000,
        }
    }
}

/// What is measured of one volume, before and after.
pub struct Figures {
    pub volume: String,
    pub about: String,
    pub held: u32,
    pub rounds: usize,
    pub seconds: [f64; 2],
    pub ratio: Spread,
    pub instructions: [u64; 2],
}

/// What both builds answer; it has to be what the volume was laid out for.
fn answer(both: &[Library; 2], volume: &Volume) -> io::Result<u32> {
    let held = volume.held();
    let right = Told {
        number: 0,
        rule: 0,
        value: held,
    };
    for library in both {
        let reply = library.check(&volume.words);
        if reply != right {
            let wrong = format!("{}: {} answers {reply:?}, and not {right:?}", volume.name, library.path.display());
            return Err(io::Error::other(wrong));
        }
    }
    Ok(held)
}

/// Instructions of one check, by callgrind.
fn instructions(library: &Library, image: &Path) -> io::Result<u64> {
    let counted = callgrind::of_one(&["once".as_ref(), library.path.as_os_str(), image.as_os_str()]);
    counted.ok_or_else(|| io::Error::other(format!("callgrind did not count the check of {}", library.path.display())))
}

/// The check of an image by one build, so many times, by the processor's time.
fn checking<'a>(library: &'a Library, image: &'a [u16]) -> Side<'a> {
    Box::new(move |repeats| {
        let start = clock::used();
        for _ in 0..repeats {
            black_box(library.check(black_box(image)));
        }
        clock::used() - start
    })
}

/// Measures the check of one volume, which lies in this file too.
pub fn measure(both: &[Library; 2], volume: &Volume, image: &Path, effort: Effort) -> io::Result<Figures> {
    let held = answer(both, volume)?;
    let mut sides = both.each_ref().map(|library| checking(library, &volume.words));
    let times = race(&mut sides, effort);
    Ok(Figures {
        volume: volume.name.clone(),
        about: volume.about.clone(),
        held,
        rounds: times[0].len(),
        seconds: [Spread::of(&times[0]).median, Spread::of(&times[1]).median],
        ratio: Spread::of_ratio(&times[1], &times[0]),
        instructions: [instructions(&both[0], image)?, instructions(&both[1], image)?],
    })
}

/// A process of so many checks, for callgrind.
pub fn once(library: &Path, image: &Path, times: usize) -> io::Result<()> {
    let (library, mapped) = (Library::load(library)?, map_native(image)?);
    for _ in 0..times {
        black_box(library.check(black_box(words(&mapped))));
    }
    Ok(())
}
