/* NORD File System disk images: the calls of the proved library, over numbers and slices.
 *
 * An image is `words` 16-bit words, 1,024 to a page; the caller lends it for the time of a call. Every call first sees that the image is of
 * a whole number of 8 to 140,733 pages (else number 1), that its arguments are right (else 2) and, format aside, that the image is sound
 * (else 3, with the lowest broken rule and the first place that breaks it). A refused call changes no word of the image. P is the number of
 * pages below.
 *
 * The bit file is a run of B = P / 16,384 pages, rounded up, from the bit pointer's page b on: one page up to 16,384 pages, nine at 140,733. The
 * bit of page p is bit p % 16 (from the right) of word p / 16 % 1,024 of page b + p / 16,384. Bits for pages from P on, which the last bit page may
 * have, are neither read nor changed, except that format writes 0.
 *
 * What a caller owes
 *
 * Slices that are lent to one call must not overlap: what a call writes to (the image of a call that changes, `out`, `replies`, `list`) may share no
 * byte with anything else that is lent to it (`img`, `name`, `type`, `data`, `steps`, `text`). Only what is read alone may overlap what is read
 * alone. All that is proved of the calls is proved of slices apart, and no call can see that they are not. So nord_write_page with data that
 * lie partly in the page which it writes answers 0 and stores other words, and nord_create_user with a name that lies in the page which the
 * new user's entry takes answers 0 and leaves an unsound image. Copy such data out of the image first.
 *
 * A slice has all the elements that its length says, each at its type's alignment: words (uint16_t) begin at an even address, steps,
 * replies and changes at one that four divides. Nothing is read or written outside a slice. A slice of length 0 is not looked at, so its pointer may be
 * anything, null too: nord_list(img, words, NULL, 0) asks for a length, and a type of no bytes may be NULL, 0.
 *
 * Words in memory are this machine's own numbers. An image file has the high byte of each word first, so on a machine that has the low byte
 * first (x86-64 and Arm do) the bytes of each word change places between the file and the slice.
 *
 * No other thread writes to what is lent while a call runs. The library keeps nothing between calls, has no data of its own and takes no
 * memory but some stack, less than 256 KiB, so calls on different images may run at the same time.
 *
 * Users, files, positions, pages and counts are size_t and judged in their full width: 2^32 + 1 pages is a wrong count, and not 1. A page count
 * (of give, take and create contiguous) is 1 to 140,733 on every volume, else 2.
 *
 * Names and types
 *
 * A name is 1 to 16 bytes of A-Z, 0-9 and hyphen, a type 0 to 4 such bytes. Both are lent without fill: an apostrophe (0x27) or a zero byte
 * in one is a wrong argument (2).
 *
 * In the image a name has 8 words and a type 2, two bytes to a word, the high byte first. A name is the bytes before the first apostrophe or
 * zero byte, or all 16 (a type: all 4). What stands behind that end is not looked at: names are compared, found and listed by the bytes before
 * it. A stored name of no bytes is illegal; a type of none is the empty type.
 *
 * A short name or type that is written gets one apostrophe and then zeros, one of all 16 (4) bytes gets none: DOCK is 0x444F, 0x434B, 0x2700
 * and five words of 0, the empty type 0x2700, 0. Format writes the volume's name, and the calls that create write the new entry's; but for the
 * two that convert, no other call changes a word of a name. Names with zeros alone behind them, as earlier versions of this library wrote
 * them, stay legal.
 */
#ifndef NORD_H
#define NORD_H

#include <stddef.h>
#include <stdint.h>

#ifdef __cplusplus
extern "C" {
#endif

/* The words of a page. */
#define NORD_PAGE 1024

/* The pages of the largest image, and the largest page count. */
#define NORD_MOST_PAGES 140733

/* The pages of the bit file of a volume of so many pages. */
#define NORD_BIT_PAGES(pages) (((size_t)(pages) + 16383) / 16384)

/* The number that a call answers: the lowest that applies, where 12, 13 and 14 stand right behind 3. */
enum {
    NORD_DONE = 0,
    NORD_SIZE = 1,        /* the length is no whole number of pages, or there are fewer than 8 or more than 140,733 */
    NORD_ARGUMENT = 2,    /* an argument is wrong */
    NORD_UNSOUND = 3,     /* the image is unsound: `rule` is the lowest broken rule, `place` where it is broken */
    NORD_MISSING = 4,     /* the named user, file or position does not exist */
    NORD_TAKEN = 5,       /* the name is taken */
    NORD_KIND = 6,        /* wrong kind: grow or shrink of a contiguous file, shrink of an empty one */
    NORD_HAS_FILES = 7,   /* delete of a user who has a file */
    NORD_FULL = 8,        /* all 256 entries are used */
    NORD_ALLOWANCE = 9,   /* given less used is below the pages needed, or below the pages to be taken back */
    NORD_UNRESERVED = 10, /* unreserved is below the system pages needed, or the pages to be given */
    NORD_NO_RUN = 11,     /* no run for a contiguous file */
    NORD_FILL = 12,       /* convert: a short name or type is not in exactly the fill that it starts from; judged right after 3 */
    NORD_OVERDRAWN = 13,  /* salvage: a user holds more than he was given, or unreserved would be below zero; judged right after 3 */
    NORD_LIST = 14        /* salvage: the list is too short for the words that change; judged right after 13 */
};

/* The rules of a sound image, by what they speak of. */
enum {
    NORD_RULE_VOLUME = 1,        /* the volume's name and the bit pointer, whose whole run lies in 1 .. P-1 */
    NORD_RULE_POINTERS = 2,      /* the user pointer and the object pointer */
    NORD_RULE_USER_INDEX = 3,    /* the slots of the user index */
    NORD_RULE_USERS = 4,         /* the used users */
    NORD_RULE_OBJECT_BLOCKS = 5, /* the blocks of the object file */
    NORD_RULE_OBJECTS = 6,       /* the used objects: owners, numbers, names */
    NORD_RULE_SHAPES = 7,        /* each file's shape, bytes and pages */
    NORD_RULE_HOLDERS = 8,       /* no page has two holders */
    NORD_RULE_BITS = 9,          /* a bit is set exactly when its page has a holder */
    NORD_RULE_COUNTS = 10        /* used, given and unreserved pages */
};

/* Who holds a page: nobody, the system, or (from 8 on) a file. */
enum {
    NORD_FREE = 0,
    NORD_MASTER = 1,
    NORD_BIT_FILE = 2,
    NORD_USER_INDEX = 3,
    NORD_USER_PAGE = 4,
    NORD_OBJECT_SUBINDEX = 5,
    NORD_OBJECT_INDEX = 6,
    NORD_OBJECT_PAGE = 7,
    NORD_FILE_SUBINDEX = 8,
    NORD_FILE_INDEX = 9,
    NORD_FILE_DATA = 10
};

/* A place: a page of the image, and a word 0 .. 1,023 within that page. Zeros are no place: no rule can be broken there.
 *
 * With NORD_UNSOUND `place` is the first place that breaks the lowest broken rule. Each rule has its places in an order of its own:
 *
 *   rule  its places, in order
 *      1  page 0: word 1,008 the volume's name, 1,020 the bit pointer
 *      2  page 0: word 1,016 the object pointer, or exactly one of the two pointers is zero; 1,018 the user pointer
 *      3  the user index: word 2s for slot s
 *      4  each used user: word 1 name (illegal, or a lower user's), 16 used is above given, 18 own index
 *      5  page 0, word 1,016: indexed, with a used user above 63; the subindex block, word 2s for slot s; the index blocks, the same
 *      6  each used object: word 0 no such user, 1 name (illegal, or a lower file of his has it with the type), 9 type, 16 user, 17 number
 *      7  each used object: word 28 bytes, 30 pointer against page count; its subindex block, word 2s for slot s; its index blocks, the same
 *      8  word 0 of the lowest page that has two holders or more
 *      9  the bit file: page b + p / 16,384, word p / 16 % 1,024 for the lowest page p whose bit is wrong
 *     10  each used user: word 16 used; and if all are right, page 0, word 1,022 unreserved
 *
 * Users, objects, index blocks and slots come ascending by their numbers, wherever their pages lie. All that rule 7 asks of one file comes
 * before the next file. Word k of entry e (a user's index, or 256 * user + file) is word 32 * (e % 32) + k of the page that it lies on. What has
 * several words, as a name, a pointer and a count do, is told by its first. */
typedef struct {
    uint32_t page;
    uint32_t word;
} nord_place;

/* Who holds a page. kind: above. user and file are 0 for system pages; position counts data pages, index blocks, bit, user and object pages
 * within their file from 0, and is 0 else: of a bit page it is 0 .. B-1. Zeros are "free". */
typedef struct {
    uint32_t kind;
    uint32_t user;
    uint32_t file;
    uint32_t position;
} nord_holder;

/* number: above. rule, place: with NORD_UNSOUND the lowest broken rule and its first place, else zeros. value: with NORD_DONE, of check the
 * pages visited, of find and create the index, of address and grow the data page's number, of salvage the number of changed words, of reading a
 * page by a step the offset of its 1,024 words in the image; else 0. first, second: with NORD_RULE_HOLDERS the two lowest holders of the page, in
 * the order kind, user, file, position (a third is not told); of a step that asks who holds a page, with NORD_DONE, first is the page's holder and
 * second free; else free. */
typedef struct {
    uint32_t number;
    uint32_t rule;
    uint32_t value;
    nord_place place;
    nord_holder first;
    nord_holder second;
} nord_reply;

/* What nord_who_holds answers: a reply that has a holder for its value. holder: with NORD_DONE, else free. */
typedef struct {
    uint32_t number;
    uint32_t rule;
    nord_holder holder;
    nord_place place;
    nord_holder first;
    nord_holder second;
} nord_holder_reply;

/* Where a file's page lies in the image: `length` words from word `offset` on; length is 1,024, or 0 where the address call would refuse. */
typedef struct {
    size_t offset;
    size_t length;
} nord_part;

/* calls that change nothing */
nord_reply nord_check(const uint16_t *img, size_t words);
nord_reply nord_find_user(const uint16_t *img, size_t words, const uint8_t *name, size_t name_bytes);
nord_reply nord_find_file(const uint16_t *img, size_t words, size_t user, const uint8_t *name, size_t name_bytes, const uint8_t *type, size_t type_bytes);
nord_reply nord_address(const uint16_t *img, size_t words, size_t user, size_t file, size_t position);
nord_holder_reply nord_who_holds(const uint16_t *img, size_t words, size_t page);
nord_part nord_read_page(const uint16_t *img, size_t words, size_t user, size_t file, size_t position);

/* Lists the image: a line for the volume, for each user and for each of his files, ascending, each ended by byte 10; or `REFUSED n`, and
 * `REFUSED 3 RULE r`, by the numbers of check. The text is written as far as `out` reaches, and no other byte of it changes. The result is
 * the length of the whole text, so it fits exactly if that is at most `out_bytes`; a call with 0 bytes asks for the length alone. */
size_t nord_list(const uint16_t *img, size_t words, uint8_t *out, size_t out_bytes);

/* calls that change. Format lays the bit file on pages bit_page .. bit_page + B-1, and nord_format_default from page P / 2 on; a bit_page is wrong
 * (2) unless it is 1 or more and its whole run lies below P. Unreserved is then P - 1 - B. */
nord_reply nord_format(uint16_t *img, size_t words, const uint8_t *name, size_t name_bytes, size_t bit_page);
nord_reply nord_format_default(uint16_t *img, size_t words, const uint8_t *name, size_t name_bytes);
nord_reply nord_create_user(uint16_t *img, size_t words, const uint8_t *name, size_t name_bytes);
nord_reply nord_delete_user(uint16_t *img, size_t words, size_t user);
nord_reply nord_give(uint16_t *img, size_t words, size_t user, size_t count);
nord_reply nord_take(uint16_t *img, size_t words, size_t user, size_t count);
nord_reply nord_create_indexed(uint16_t *img, size_t words, size_t user, const uint8_t *name, size_t name_bytes, const uint8_t *type, size_t type_bytes, uint32_t created);
nord_reply nord_create_contiguous(uint16_t *img, size_t words, size_t user, const uint8_t *name, size_t name_bytes, const uint8_t *type, size_t type_bytes, uint32_t created, size_t count);
nord_reply nord_grow(uint16_t *img, size_t words, size_t user, size_t file);
nord_reply nord_shrink(uint16_t *img, size_t words, size_t user, size_t file);
nord_reply nord_delete_file(uint16_t *img, size_t words, size_t user, size_t file);
nord_reply nord_write_page(uint16_t *img, size_t words, size_t user, size_t file, size_t position, const uint16_t *data, size_t data_words);
nord_reply nord_note_open(uint16_t *img, size_t words, size_t user, size_t file);

/* Conversion of what stands behind short names and types: in the volume's name and in every used entry, from zeros alone to one apostrophe and
 * then zeros, and back. Each answers 1, 3, 12 or 0. 12: one that is short is not in exactly the fill that the call starts from, so a volume with
 * both fills, or with leftovers, is refused by both, and one that was converted already by the same, if any name or type is short. All are looked
 * at before the first word is written. Names of 16 bytes and types of 4 have no fill and stay; unused entries and all other words stay. There
 * and back gives the same words. */
nord_reply nord_convert_to_apostrophe(uint16_t *img, size_t words);
nord_reply nord_convert_to_zeros(uint16_t *img, size_t words);

/* One changed word: word 0 .. 1,023 of a page, its old and its new value. */
typedef struct {
    uint32_t page;
    uint32_t word;
    uint32_t old_value;
    uint32_t new_value;
} nord_change;

/* So many changes are enough for a volume of so many pages: unreserved, a word for each 16 bits, two words for each of 256 users. */
#define NORD_CHANGES(pages) (2 + ((size_t)(pages) + 15) / 16 + 512)

/* Salvages a volume whose pointers are good and whose bits or counts are not. Where rules 1 to 8 hold, rule 4 without its comparison of used
 * with given, the bits of all pages are rewritten from what the pointers hold, the used counts of all used users from what their files hold, and
 * unreserved from the sum: P less the pages given to used users less the system pages. Every word that changes is told in `list`, in ascending
 * place (by page, then by word), and `value` is their number; the changes past it stay. No other word changes, nor a bit from P on. What is
 * left is sound, and a second salvage tells of nothing. Answers 1; 3, of these rules alone; 13; 14, if more words would change than `list` has
 * changes (none is written then, and `value` is 0); or 0. A refusal changes neither the image nor the list. */
nord_reply nord_salvage(uint16_t *img, size_t words, nord_change *list, size_t changes);

/* The calls of a step, with what each uses of it. Who holds a page and reading a page have their answers in a reply: the holder as `first`, and where
 * the page's words lie as the value. */
enum {
    NORD_CALL_FORMAT = 1,                 /* name, count: the first bit page */
    NORD_CALL_CHECK = 2,                  /* nothing */
    NORD_CALL_FIND_USER = 3,              /* name */
    NORD_CALL_FIND_FILE = 4,              /* user, name, type */
    NORD_CALL_ADDRESS = 5,                /* user, file, count: the position */
    NORD_CALL_WHO_HOLDS = 6,              /* count: the page */
    NORD_CALL_CREATE_USER = 7,            /* name */
    NORD_CALL_DELETE_USER = 8,            /* user */
    NORD_CALL_GIVE = 9,                   /* user, count */
    NORD_CALL_TAKE = 10,                  /* user, count */
    NORD_CALL_CREATE_INDEXED = 11,        /* user, name, type, created */
    NORD_CALL_CREATE_CONTIGUOUS = 12,     /* user, name, type, created, count */
    NORD_CALL_GROW = 13,                  /* user, file */
    NORD_CALL_SHRINK = 14,                /* user, file */
    NORD_CALL_DELETE_FILE = 15,           /* user, file */
    NORD_CALL_READ_PAGE = 16,             /* user, file, count: the position */
    NORD_CALL_WRITE_PAGE = 17,            /* user, file, count: the position, data */
    NORD_CALL_NOTE_OPEN = 18,             /* user, file */
    NORD_CALL_FORMAT_DEFAULT = 19,        /* name */
    NORD_CALL_CONVERT_TO_APOSTROPHE = 20, /* nothing */
    NORD_CALL_CONVERT_TO_ZEROS = 21,      /* nothing */
    NORD_CALL_SALVAGE = 22                /* nothing; the changes are told in the list that is lent to the run */
};

/* A step: a call with its arguments. The name is the bytes name_at .. name_at + name_bytes of `text`, the type likewise, and a page's data
 * are the 1,024 words of `data` from data_at on. What a call does not use may be anything. */
typedef struct {
    uint32_t call;
    uint32_t user;
    uint32_t file;
    uint32_t count;
    uint32_t created;
    uint32_t name_at;
    uint32_t name_bytes;
    uint32_t type_at;
    uint32_t type_bytes;
    uint32_t data_at;
} nord_step;

/* The lengths that nord_run is told: the numbers of so many steps, of so many changes, and of so many replies. */
#define NORD_STEPS(n) ((size_t)(n) * 10)
#define NORD_CHANGE_NUMBERS(n) ((size_t)(n) * 4)
#define NORD_REPLIES(n) ((size_t)(n) * 13)

/* Makes a list of calls with one check of the image for all of them. The steps are made in order, as many as there are (whole ones) and as
 * have room for a reply; the result is the number of replies. Each step made has its reply, in its place; the first that is refused is the
 * last that is made, and all other replies stay as they were. Replies, image and list are those of the single calls made one after the other. A
 * step with any other call's number, or that uses a part which does not lie in `text` or `data`, is a call with a wrong argument.
 *
 * A salvage is lent all of `list`, whose room is its whole changes, and tells its changes from the list's beginning on; every other step leaves
 * the list. Each step that is done leaves a sound image, so only a salvage that is the first step can have a change to tell: a run that does not
 * begin with one needs no list (NULL, 0). */
size_t nord_run(uint16_t *img, size_t words, const nord_step *steps, size_t step_numbers, const uint8_t *text, size_t text_bytes,
                const uint16_t *data, size_t data_words, nord_change *list, size_t change_numbers, nord_reply *replies, size_t reply_numbers);

#ifdef __cplusplus
}
#endif

#endif
