//! Memory that a call takes beyond the image: `bench-memory IMAGE [CALL]` tells the stack and the heap of each call, or of that one, and of
//! each program, in bytes; and of a salvage and of lists of calls. A program of its own, since its allocator counts, which would cost time in the others.

use bench::calls::{ask, Call, Program, Question, CALLS};
use bench::scratch::{map_private, question_of, words_mut};
use bench::stack::{depth, one_step, STEPS};
use bench::stale::list;
use std::alloc::{GlobalAlloc, Layout, System};
use std::hint::black_box;
use std::io;
use std::path::Path;
use std::sync::atomic::{AtomicUsize, Ordering::Relaxed};

/// The system's allocator, with the bytes that are out now and the most that were.
struct Counting;

static NOW: AtomicUsize = AtomicUsize::new(0);
static PEAK: AtomicUsize = AtomicUsize::new(0);

unsafe impl GlobalAlloc for Counting {
    unsafe fn alloc(&self, layout: Layout) -> *mut u8 {
        let now = NOW.fetch_add(layout.size(), Relaxed) + layout.size();
        PEAK.fetch_max(now, Relaxed);
        System.alloc(layout)
    }

    unsafe fn dealloc(&self, block: *mut u8, layout: Layout) {
        NOW.fetch_sub(layout.size(), Relaxed);
        System.dealloc(block, layout);
    }
}

#[global_allocator]
static ALLOCATOR: Counting = Counting;

/// The most bytes that a piece of work had from the allocator at once.
fn heap(work: &mut dyn FnMut()) -> usize {
    let before = NOW.load(Relaxed);
    PEAK.store(before, Relaxed);
    work();
    PEAK.load(Relaxed) - before
}

fn tell(image: &Path, question: &Question, calls: &[Call]) -> io::Result<()> {
    for &call in calls {
        for program in [Program::Proved, Program::Second] {
            let (mut for_stack, mut for_heap) = (map_private(image)?, map_private(image)?);
            let stack = depth(&mut || {
                black_box(ask(program, call, words_mut(&mut for_stack), question));
            });
            let heap = heap(&mut || {
                black_box(ask(program, call, words_mut(&mut for_heap), question));
            });
            println!("{} {} {stack} {heap}", call.name(), program.name());
        }
    }
    Ok(())
}

/// The same of a salvage, done or refused, by the library alone; the list is the caller's.
fn tell_salvage(image: &Path) -> io::Result<()> {
    let (mut for_stack, mut for_heap) = (map_private(image)?, map_private(image)?);
    let mut lent = list(words_mut(&mut for_stack));
    let stack = depth(&mut || {
        black_box(proved::salvage(words_mut(&mut for_stack), &mut lent));
    });
    let heap = heap(&mut || {
        black_box(proved::salvage(words_mut(&mut for_heap), &mut lent));
    });
    println!("salvage {} {stack} {heap}", Program::Proved.name());
    Ok(())
}

/// The same of lists of one call, the deepest of all that a step can ask for.
fn tell_runs(image: &Path) -> io::Result<()> {
    let mut most = (0, 0);
    for call in STEPS {
        let (mut for_stack, mut for_heap) = (map_private(image)?, map_private(image)?);
        let mut lent = list(words_mut(&mut for_stack));
        let stack = depth(&mut || one_step(words_mut(&mut for_stack), call, &mut lent));
        let heap = heap(&mut || one_step(words_mut(&mut for_heap), call, &mut lent));
        most = (stack.max(most.0), heap.max(most.1));
    }
    println!("run {} {} {}", Program::Proved.name(), most.0, most.1);
    Ok(())
}

fn main() -> io::Result<()> {
    let wrong = || io::Error::other("bench-memory IMAGE [CALL]");
    let image = std::env::args().nth(1).ok_or_else(wrong)?;
    let image = Path::new(&image);
    let calls = match std::env::args().nth(2) {
        Some(name) => vec![Call::by_name(&name).ok_or_else(wrong)?],
        None => CALLS.to_vec(),
    };
    tell(image, &question_of(image)?, &calls)?;
    tell_salvage(image)?;
    tell_runs(image)
}
