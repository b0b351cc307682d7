//! How deep a piece of work goes into its stack: it runs in a thread whose stack was painted before, and what is no longer paint was used.

use std::ffi::{c_int, c_void};

/// A thread's attributes, as large as any of the C library's.
type Attributes = [u64; 16];
type Entry = extern "C" fn(*mut c_void) -> *mut c_void;

extern "C" {
    fn pthread_attr_init(attributes: *mut Attributes) -> c_int;
    fn pthread_attr_setstack(attributes: *mut Attributes, lowest: *mut c_void, size: usize) -> c_int;
    fn pthread_create(thread: *mut usize, attributes: *const Attributes, entry: Entry, argument: *mut c_void) -> c_int;
    fn pthread_join(thread: usize, result: *mut *mut c_void) -> c_int;
}

/// Bytes of the painted stack, and the paint.
const SIZE: usize = 4 << 20;
const PAINT: u64 = 0xA5A5_5A5A_C3C3_3C3C;

/// The work, as the thread finds it.
struct Work<'a>(&'a mut dyn FnMut());

extern "C" fn run(argument: *mut c_void) -> *mut c_void {
    let work = unsafe { &mut *argument.cast::<Work>() };
    (work.0)();
    std::ptr::null_mut()
}

/// Runs the work on a painted stack; gives the bytes from the stack's end to the lowest word that was written.
fn touched(work: &mut dyn FnMut()) -> usize {
    let mut stack: Vec<u128> = vec![u128::from(PAINT) << 64 | u128::from(PAINT); SIZE / 16];
    let mut work = Work(work);
    let (mut attributes, mut thread) = ([0; 16], 0);
    unsafe {
        assert_eq!(pthread_attr_init(&mut attributes), 0);
        assert_eq!(pthread_attr_setstack(&mut attributes, stack.as_mut_ptr().cast(), SIZE), 0);
        assert_eq!(pthread_create(&mut thread, &attributes, run, (&raw mut work).cast()), 0);
        assert_eq!(pthread_join(thread, std::ptr::null_mut()), 0);
    }
    let (_, words, _) = unsafe { stack.align_to::<u64>() };
    let untouched = words.iter().take_while(|&&word| word == PAINT).count();
    SIZE - 8 * untouched
}

/// The bytes of stack that a piece of work uses, beyond what an empty one does.
pub fn depth(work: &mut dyn FnMut()) -> usize {
    let empty = touched(&mut || ());
    touched(work).saturating_sub(empty)
}

/// The calls that a step can ask for.
pub const STEPS: std::ops::RangeInclusive<u32> = proved::call::FORMAT..=proved::call::SALVAGE;

/// A list of one call: user 0, file 0, page or position 1, name NAME, type DATA.
pub fn one_step(image: &mut [u16], call: u32, list: &mut [proved::Change]) {
    let step = proved::Step {
        call,
        count: 1,
        name_bytes: 4,
        type_at: 4,
        type_bytes: 4,
        ..proved::Step::default()
    };
    let (data, mut replies) = ([0; proved::PAGE], [proved::Reply::default()]);
    std::hint::black_box(proved::run(image, &[step], b"NAMEDATA", &data, list, &mut replies));
}
