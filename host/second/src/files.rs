//! Calls that change files, but for their length: create, delete, write a
//! page, note an open.

use crate::arguments;
use crate::bits::reserve;
use crate::check::demand_sound;
use crate::entry::{entry_words, object, object_number, user, EntryPlace, ENTRIES, ENTRY_WORDS, NAME, TYPE, USED_WORD};
use crate::find::{file_named, named_file, try_address};
use crate::image::{page_count, page_words_mut, pair, put_pair, PAGE_WORDS, UNRESERVED};
use crate::name::{is_name, is_type, pack, NAME_WORDS, TYPE_WORDS};
use crate::pointer::{block_and_slot, put_slot, Pointer};
use crate::reply::{
    demand, Outcome, Refusal, Reply, ABSENT, BAD_ARGUMENT, ENTRIES_FULL, GIVEN_SHORT, NAME_TAKEN, NO_RUN, UNRESERVED_SHORT,
};
use crate::search::{highest_run_of, lowest_free_of};
use crate::volume::{
    bits, file_entry, file_pages, free_page, object_index, object_page, object_pointer, take_page, take_this, unreserved, user_entry,
};

/// What a caller says of a new file; a count makes it contiguous.
struct NewFile<'a> {
    user: usize,
    name: &'a [u8],
    kind: &'a [u8],
    created: u32,
    count: Option<usize>,
}

/// What a new file will need, all tests passed.
struct Plan {
    /// Its user, and where his entry starts.
    user: u32,
    owner: usize,
    file: u32,
    system_pages: u32,
    /// First page and count of a contiguous file; (0, 0) for an indexed one.
    run: (u32, u32),
}

/// Creates an empty indexed file.
pub fn create_indexed(image: &mut [u16], user: usize, name: &[u8], kind: &[u8], created: u32) -> Reply {
    create(
        image,
        &NewFile {
            user,
            name,
            kind,
            created,
            count: None,
        },
    )
    .into()
}

/// Creates a contiguous file of so many pages.
pub fn create_contiguous(image: &mut [u16], user: usize, name: &[u8], kind: &[u8], created: u32, count: usize) -> Reply {
    create(
        image,
        &NewFile {
            user,
            name,
            kind,
            created,
            count: Some(count),
        },
    )
    .into()
}

fn create(image: &mut [u16], new: &NewFile) -> Outcome {
    let plan = plan_file(image, new)?;
    let rest = unreserved(image) - plan.system_pages;
    put_pair(image, UNRESERVED, rest);
    let start = make_object_place(image, plan.user, plan.file);
    let (first, count) = plan.run;
    for page in first..first + count {
        take_this(image, page);
    }
    let used = pair(image, plan.owner + user::USED) + count;
    put_pair(image, plan.owner + user::USED, used);
    write_entry(&mut image[start..][..ENTRY_WORDS], new, &plan);
    Ok(plan.file)
}

/// The tests of a create, in the order of their numbers.
fn plan_file(image: &[u16], new: &NewFile) -> Result<Plan, Refusal> {
    let pages = page_count(image)?;
    let (user, count) = (arguments::index(new.user)?, new.count.map(arguments::count).transpose()?);
    demand(is_name(new.name) && is_type(new.kind), BAD_ARGUMENT)?;
    demand_sound(image, pages)?;
    let owner = user_entry(image, user).ok_or(ABSENT)?;
    demand(file_named(image, user, new.name, new.kind).is_none(), NAME_TAKEN)?;
    let mut unused = (0..ENTRIES).filter(|&file| file_entry(image, user, file).is_none());
    let file = unused.next().ok_or(ENTRIES_FULL)?;
    let (given, used) = (pair(image, owner + user::GIVEN), pair(image, owner + user::USED));
    demand(given - used >= count.unwrap_or(0), GIVEN_SHORT)?;
    let system_pages = system_pages_needed(image, user, file);
    demand(unreserved(image) >= system_pages, UNRESERVED_SHORT)?;
    let run = match count {
        None => (0, 0),
        Some(count) => (run_left(image, pages, system_pages, count).ok_or(NO_RUN)?, count),
    };
    Ok(Plan {
        user,
        owner,
        file,
        system_pages,
        run,
    })
}

/// The object index block, if absent, and the object page, if absent.
fn system_pages_needed(image: &[u16], user: u32, file: u32) -> u32 {
    let position = EntryPlace::of(object_number(user, file)).position;
    let (n, _) = block_and_slot(position);
    let no_index = object_index(image, n).is_none();
    let no_page = object_page(image, position).is_none();
    u32::from(no_index) + u32::from(no_page)
}

/// The run of a contiguous file, once the system pages will be taken.
fn run_left(image: &[u16], pages: u32, system_pages: u32, count: u32) -> Option<u32> {
    let mut later = bits(image).to_vec();
    let mut from = 0;
    for _ in 0..system_pages {
        let page = lowest_free_of(&later, pages, from)?;
        reserve(&mut later, page);
        from = page + 1;
    }
    highest_run_of(&later, pages, count)
}

/// Takes the system pages a file needs; gives where its entry starts.
fn make_object_place(image: &mut [u16], user: u32, file: u32) -> usize {
    let place = EntryPlace::of(object_number(user, file));
    let (n, slot) = block_and_slot(place.position);
    let block = object_index(image, n).unwrap_or_else(|| make_object_index(image, n));
    let page = object_page(image, place.position).unwrap_or_else(|| {
        let page = take_page(image);
        put_slot(image, block, slot, page);
        page
    });
    place.start_in(page)
}

/// The n-th index block of a subindexed object file; an indexed one always
/// has its only block.
fn make_object_index(image: &mut [u16], n: u32) -> u32 {
    let block = take_page(image);
    if let Pointer::Subindexed(subindex) = object_pointer(image) {
        put_slot(image, subindex, n, block);
    }
    block
}

/// Clears a new file's entry and writes it.
fn write_entry(entry: &mut [u16], new: &NewFile, plan: &Plan) {
    let (first, count) = plan.run;
    entry.fill(0);
    entry[0] = USED_WORD;
    entry[NAME..][..NAME_WORDS].copy_from_slice(&pack::<NAME_WORDS>(new.name));
    entry[TYPE..][..TYPE_WORDS].copy_from_slice(&pack::<TYPE_WORDS>(new.kind));
    entry[object::USER] = plan.user as u16;
    entry[object::OWN_NUMBER] = object_number(plan.user, plan.file) as u16;
    put_pair(entry, object::CREATED, new.created);
    put_pair(entry, object::PAGES, count);
    put_pair(entry, object::BYTES, 2048 * count);
    put_pair(entry, object::POINTER, first);
}

/// Deletes a file: its pages are freed, its entry is cleared.
pub fn delete_file(image: &mut [u16], user: usize, file: usize) -> Reply {
    try_delete_file(image, user, file).into()
}

fn try_delete_file(image: &mut [u16], user: usize, file: usize) -> Outcome {
    let (user, start) = named_file(image, user, file)?;
    let owner = user_entry(image, user).ok_or(ABSENT)?;
    let held = file_pages(image, entry_words(image, start));
    let used = pair(image, owner + user::USED) - held.len() as u32;
    put_pair(image, owner + user::USED, used);
    for (page, ..) in held {
        free_page(image, page);
    }
    image[start..][..ENTRY_WORDS].fill(0);
    Ok(0)
}

/// Replaces the 1,024 words of one file page.
pub fn write_page(image: &mut [u16], user: usize, file: usize, position: usize, data: &[u16]) -> Reply {
    try_write_page(image, user, file, position, data).into()
}

fn try_write_page(image: &mut [u16], user: usize, file: usize, position: usize, data: &[u16]) -> Outcome {
    page_count(image)?;
    demand(data.len() == PAGE_WORDS, BAD_ARGUMENT)?;
    let page = try_address(image, user, file, position)?;
    page_words_mut(image, page).copy_from_slice(data);
    Ok(0)
}

/// Notes an open: total opens grows by one, and after 65,535 comes 0.
pub fn note_open(image: &mut [u16], user: usize, file: usize) -> Reply {
    try_note_open(image, user, file).into()
}

fn try_note_open(image: &mut [u16], user: usize, file: usize) -> Outcome {
    let (_, start) = named_file(image, user, file)?;
    let opens = &mut image[start + object::TOTAL_OPENS];
    *opens = opens.wrapping_add(1);
    Ok(0)
}
