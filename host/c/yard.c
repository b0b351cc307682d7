/* Calls every function of nord.h with known results: the yard examples of document 01 that a program runs, by single calls and by one run,
 * and beside them each number, each rule with its place and each kind of holder once. One line for each case; the exit status is 1 where one
 * is wrong. */
#include <nord.h>

#include <stdio.h>
#include <stdlib.h>
#include <string.h>

#define PAGE NORD_PAGE

/* The first number that 32 bits do not hold. */
#define WIDE ((size_t)UINT32_MAX + 1)

static int cases, wrong;

/* A name or type as the two arguments that the header wants. */
#define TEXT(text) (const uint8_t *)(text), strlen(text)

static void told(const char *what, int right)
{
    cases++;
    wrong += !right;
    printf("%s  %s\n", right ? "ok   " : "WRONG", what);
}

/* The numbers of an answer, in the order of its struct. */
static void numbers(const char *who, const uint32_t *of, size_t count)
{
    size_t n;
    printf("       %s:", who);
    for (n = 0; n < count; n++)
        printf(" %u", (unsigned)of[n]);
    printf("\n");
}

/* An answer is right in all of its numbers. */
static void same(const char *what, const uint32_t *got, const uint32_t *right, size_t count)
{
    int all = memcmp(got, right, count * sizeof *got) == 0;
    told(what, all);
    if (!all) {
        numbers("answered", got, count);
        numbers("right is", right, count);
    }
}

/* Answers are nothing but numbers. */
static void is(const char *what, nord_reply got, nord_reply right)
{
    same(what, (const uint32_t *)&got, (const uint32_t *)&right, NORD_REPLIES(1));
}

static void done(const char *what, nord_reply got, uint32_t value)
{
    nord_reply right = {.number = NORD_DONE, .value = value};
    is(what, got, right);
}

/* A refusal, which has no other number. */
static void refused(const char *what, nord_reply got, uint32_t number)
{
    nord_reply right = {.number = number};
    is(what, got, right);
}

/* A rule that is broken at a place. */
static void broken(const char *what, nord_reply got, uint32_t rule, uint32_t page, uint32_t word)
{
    nord_reply right = {.number = NORD_UNSOUND, .rule = rule, .place = {page, word}};
    is(what, got, right);
}

/* A page that is held twice. */
static void twice(const char *what, nord_reply got, uint32_t page, nord_holder first, nord_holder second)
{
    nord_reply right = {.number = NORD_UNSOUND, .rule = NORD_RULE_HOLDERS, .place = {page, 0}};
    right.first = first;
    right.second = second;
    is(what, got, right);
}

/* What nord_who_holds answers has more numbers. */
static void holder_is(const char *what, nord_holder_reply got, nord_holder_reply right)
{
    same(what, (const uint32_t *)&got, (const uint32_t *)&right, sizeof got / sizeof got.number);
}

static void holds(const char *what, nord_holder_reply got, uint32_t kind, uint32_t user, uint32_t file, uint32_t position)
{
    nord_holder_reply right = {.number = NORD_DONE, .holder = {kind, user, file, position}};
    holder_is(what, got, right);
}

/* The holder's answer where an image is unsound, or an argument wrong. */
static void holds_not(const char *what, nord_holder_reply got, uint32_t number, uint32_t rule, uint32_t page, uint32_t word)
{
    nord_holder_reply right = {.number = number, .rule = rule, .place = {page, word}};
    holder_is(what, got, right);
}

/* A two-word number of the image, the more significant word first. */
static uint32_t two(const uint16_t *img, size_t at)
{
    return (uint32_t)img[at] << 16 | img[at + 1];
}

static uint32_t unreserved(const uint16_t *img)
{
    return two(img, 1022);
}

/* The page that a pointer of the image names, flags aside. */
static size_t pointed(const uint16_t *img, size_t at)
{
    return two(img, at) & 0x3FFFFFFF;
}

/* The used pages of user 255: his entry is the last of user page 7. */
static uint32_t used_by_255(const uint16_t *img)
{
    size_t user_index = pointed(img, 1018), page = pointed(img, user_index * PAGE + 2 * 7);
    return two(img, page * PAGE + 31 * 32 + 16);
}

static uint16_t *blank(size_t pages)
{
    uint16_t *img = calloc(pages * PAGE, sizeof *img);
    if (img == NULL) {
        perror("yard");
        exit(2);
    }
    return img;
}

static int is_change(nord_change got, uint32_t page, uint32_t word, uint32_t old_value, uint32_t new_value)
{
    return got.page == page && got.word == word && got.old_value == old_value && got.new_value == new_value;
}

/* P = 8 and 140,733 pass shape; 7 and 140,734 get 1. Pages that no call touches cost no memory. */
static void lengths(void)
{
    size_t most = NORD_MOST_PAGES;
    uint16_t *img = blank(most + 1);
    refused("7 pages get 1", nord_format_default(img, 7 * PAGE, TEXT("YARD")), NORD_SIZE);
    refused("140,734 pages get 1", nord_format_default(img, (most + 1) * PAGE, TEXT("YARD")), NORD_SIZE);
    refused("8 pages and a word get 1", nord_check(img, 8 * PAGE + 1), NORD_SIZE);
    refused("no words get 1", nord_check(img, 0), NORD_SIZE);
    told("refused formats changed nothing", img[1008] == 0 && img[1021] == 0 && img[1023] == 0);
    done("8 pages pass shape", nord_format_default(img, 8 * PAGE, TEXT("YARD")), 0);
    done("8 pages: check visits 2", nord_check(img, 8 * PAGE), 2);
    done("16,384 pages pass shape", nord_format(img, 16384 * (size_t)PAGE, TEXT("YARD"), 16383), 0);
    done("16,384 pages: check visits 2", nord_check(img, 16384 * (size_t)PAGE), 2);
    refused("16,385 pages, one bit page too far: 2", nord_format(img, 16385 * (size_t)PAGE, TEXT("YARD"), 16384), NORD_ARGUMENT);
    done("16,385 pages pass shape", nord_format(img, 16385 * (size_t)PAGE, TEXT("YARD"), 16383), 0);
    done("16,385 pages: check visits 3", nord_check(img, 16385 * (size_t)PAGE), 3);
    free(img);
    told("bit pages", NORD_BIT_PAGES(8) == 1 && NORD_BIT_PAGES(16384) == 1 && NORD_BIT_PAGES(16385) == 2 && NORD_BIT_PAGES(37035) == 3);
}

/* The pack of 288 MB: nine bit pages. */
static void largest_pack(void)
{
    size_t pages = NORD_MOST_PAGES, words = pages * PAGE;
    uint16_t *img = blank(pages);
    done("140,733 pages pass shape", nord_format_default(img, words, TEXT("PACK")), 0);
    told("bit pages 70,366 to 70,374, unreserved 140,723", two(img, 1020) == 70366 && NORD_BIT_PAGES(pages) == 9 && unreserved(img) == 140723);
    done("check visits 10", nord_check(img, words), 10);
    holds("the first bit page", nord_who_holds(img, words, 70366), NORD_BIT_FILE, 0, 0, 0);
    holds("the ninth bit page", nord_who_holds(img, words, 70374), NORD_BIT_FILE, 0, 0, 8);
    holds("the page after them", nord_who_holds(img, words, 70375), NORD_FREE, 0, 0, 0);
    holds("page 140,732", nord_who_holds(img, words, 140732), NORD_FREE, 0, 0, 0);
    holds_not("page 140,733: 2", nord_who_holds(img, words, 140733), NORD_ARGUMENT, 0, 0, 0);
    img[70374 * (size_t)PAGE + 603] = 1 << 12;
    broken("the bit of page 140,732: page 70,374, word 603", nord_check(img, words), NORD_RULE_BITS, 70374, 603);
    img[70374 * (size_t)PAGE + 603] = 7 << 13, img[70374 * (size_t)PAGE + 1023] = 1;
    done("bits from page 140,733 on are nobody's", nord_check(img, words), 10);
    refused("bit pages from 140,725 on: 2", nord_format(img, words, TEXT("PACK"), 140725), NORD_ARGUMENT);
    refused("bit pages from 0 on: 2", nord_format(img, words, TEXT("PACK"), 0), NORD_ARGUMENT);
    done("bit pages from 140,724 on", nord_format(img, words, TEXT("PACK"), 140724), 0);
    holds("the last page is the ninth bit page", nord_who_holds(img, words, 140732), NORD_BIT_FILE, 0, 0, 8);
    told("140,733 pages need 9,310 changes at most", NORD_CHANGES(140733) == 9310);
    free(img);
}

/* The pack of 75 MB with its first user: bit pages 18,517 to 18,519. */
static uint16_t *pack75(void)
{
    uint16_t *img = blank(37035);
    size_t words = 37035 * (size_t)PAGE;
    done("37,035 pages by default", nord_format_default(img, words, TEXT("PACK")), 0);
    told("bit pages 18,517 to 18,519, unreserved 37,031", two(img, 1020) == 18517 && unreserved(img) == 37031);
    done("check visits 4", nord_check(img, words), 4);
    done("first user is 0", nord_create_user(img, words, TEXT("DOCK")), 0);
    told("unreserved 37,028", unreserved(img) == 37028);
    return img;
}

/* Page counts and files past the first bit page. */
static void counts_of_a_pack(uint16_t *img, size_t words)
{
    refused("give 140,734 pages: 2", nord_give(img, words, 0, 140734), NORD_ARGUMENT);
    refused("give 140,733 pages: 10", nord_give(img, words, 0, 140733), NORD_UNRESERVED);
    done("give 20,000 pages", nord_give(img, words, 0, 20000), 0);
    refused("take 140,734 pages: 2", nord_take(img, words, 0, 140734), NORD_ARGUMENT);
    refused("take 20,001 pages: 9", nord_take(img, words, 0, 20001), NORD_ALLOWANCE);
    refused("a run of 140,734 pages: 2", nord_create_contiguous(img, words, 0, TEXT("RUN"), TEXT(""), 0, 140734), NORD_ARGUMENT);
    refused("no run of 18,516 pages: 11", nord_create_contiguous(img, words, 0, TEXT("RUN"), TEXT(""), 0, 18516), NORD_NO_RUN);
    done("a run of 18,515 pages", nord_create_contiguous(img, words, 0, TEXT("RUN"), TEXT(""), 0, 18515), 0);
    done("it begins behind the bit pages", nord_address(img, words, 0, 0, 0), 18520);
    holds("and ends the pack", nord_who_holds(img, words, 37034), NORD_FILE_DATA, 0, 0, 18514);
    holds("the second bit page", nord_who_holds(img, words, 18518), NORD_BIT_FILE, 0, 0, 1);
    holds("the third bit page", nord_who_holds(img, words, 18519), NORD_BIT_FILE, 0, 0, 2);
}

/* Rule 9 in the second bit page, and rule 1 of a run that does not fit; then a salvage of all three bit pages. */
static void rules_of_a_pack(uint16_t *img, size_t words)
{
    uint16_t *bits = img + 18517 * (size_t)PAGE;
    nord_change list[4];
    bits[PAGE] = 1;
    broken("the bit of page 16,384: page 18,518, word 0", nord_check(img, words), NORD_RULE_BITS, 18518, 0);
    bits[PAGE] = 0;
    img[1021] = 37033;
    broken("bit pages to 37,035: page 0, word 1,020", nord_check(img, words), NORD_RULE_VOLUME, 0, 1020);
    img[1021] = 18517;
    bits[0] = 0, bits[PAGE + 1023] = 0, bits[2 * PAGE + 266] = 0xF800;
    done("salvage changes a word of each bit page", nord_salvage(img, words, list, 4), 3);
    told("pages 0 to 4", is_change(list[0], 18517, 0, 0, 0x1F));
    told("pages 32,752 to 32,767", is_change(list[1], 18518, 1023, 0, 0xFFFF));
    told("pages 37,024 to 37,034, and the bits from 37,035 on stay", is_change(list[2], 18519, 266, 0xF800, 0xFFFF));
    done("check visits 18,523", nord_check(img, words), 18523);
}

static void packs(void)
{
    size_t words = 37035 * (size_t)PAGE;
    uint16_t *img = pack75();
    counts_of_a_pack(img, words);
    rules_of_a_pack(img, words);
    free(img);
    largest_pack();
}

/* The volume of 154 pages up to its first indexed file. */
static void first_steps(uint16_t *img, size_t words)
{
    done("154 pages by default", nord_format_default(img, words, TEXT("YARD")), 0);
    told("bit page 77, unreserved 152", two(img, 1020) == 77 && unreserved(img) == 152);
    holds("page 1 is free", nord_who_holds(img, words, 1), NORD_FREE, 0, 0, 0);
    done("first user is 0", nord_create_user(img, words, TEXT("DOCK")), 0);
    told("unreserved 149", unreserved(img) == 149);
    holds("page 0: master", nord_who_holds(img, words, 0), NORD_MASTER, 0, 0, 0);
    holds("page 77: bit file", nord_who_holds(img, words, 77), NORD_BIT_FILE, 0, 0, 0);
    holds("page 1: user index", nord_who_holds(img, words, 1), NORD_USER_INDEX, 0, 0, 0);
    holds("page 2: user page", nord_who_holds(img, words, 2), NORD_USER_PAGE, 0, 0, 0);
    holds("page 3: object index", nord_who_holds(img, words, 3), NORD_OBJECT_INDEX, 0, 0, 0);
    done("give 100", nord_give(img, words, 0, 100), 0);
    told("unreserved 49", unreserved(img) == 49);
    done("indexed file is 0", nord_create_indexed(img, words, 0, TEXT("READS"), TEXT("DATA"), 0x12345), 0);
    told("unreserved 48", unreserved(img) == 48);
    told("created is kept", two(img, 4 * PAGE + 20) == 0x12345);
    holds("page 4: object page", nord_who_holds(img, words, 4), NORD_OBJECT_PAGE, 0, 0, 0);
}

/* The same volume, with pages in its files. */
static void pages_of_files(uint16_t *img, size_t words)
{
    char what[64];
    uint32_t n;
    done("grow: data page 5", nord_grow(img, words, 0, 0), 5);
    holds("page 5: data", nord_who_holds(img, words, 5), NORD_FILE_DATA, 0, 0, 0);
    holds("page 6: index block", nord_who_holds(img, words, 6), NORD_FILE_INDEX, 0, 0, 0);
    done("contiguous 10 is file 1", nord_create_contiguous(img, words, 0, TEXT("RUN"), TEXT(""), 7, 10), 1);
    for (n = 0; n < 10; n++) {
        sprintf(what, "contiguous 10: position %u on page %u", (unsigned)n, (unsigned)(144 + n));
        done(what, nord_address(img, words, 0, 1, n), 144 + n);
    }
    holds("page 153: data 9 of file 1", nord_who_holds(img, words, 153), NORD_FILE_DATA, 0, 1, 9);
    done("check visits 18", nord_check(img, words), 18);
    done("find DOCK", nord_find_user(img, words, TEXT("DOCK")), 0);
    done("find RUN", nord_find_file(img, words, 0, TEXT("RUN"), TEXT("")), 1);
    refused("no READS of no type: 4", nord_find_file(img, words, 0, TEXT("READS"), TEXT("")), NORD_MISSING);
}

/* Writing, reading and opens. */
static void words_of_pages(uint16_t *img, size_t words)
{
    uint16_t data[PAGE];
    nord_part part;
    size_t n;
    for (n = 0; n < PAGE; n++)
        data[n] = (uint16_t)(3 * n + 1);
    done("write position 9 of file 1", nord_write_page(img, words, 0, 1, 9, data, PAGE), 0);
    refused("a page of 1,023 words: 2", nord_write_page(img, words, 0, 1, 9, data, PAGE - 1), NORD_ARGUMENT);
    part = nord_read_page(img, words, 0, 1, 9);
    told("read: page 153, 1,024 words", part.offset == 153 * PAGE && part.length == PAGE);
    told("read: what was written", memcmp(img + part.offset, data, sizeof data) == 0);
    part = nord_read_page(img, words, 0, 1, 10);
    told("read past the end: an empty part", part.length == 0);
    done("note an open", nord_note_open(img, words, 0, 0), 0);
    told("one open", img[4 * PAGE + 19] == 1);
    img[4 * PAGE + 19] = 65535;
    done("note one after 65,535", nord_note_open(img, words, 0, 0), 0);
    told("no opens", img[4 * PAGE + 19] == 0);
}

/* Each number from 2 on that this volume can give, and indices that 32 bits do not hold. */
static void refusals(uint16_t *img, size_t words)
{
    uint16_t *before = blank(words / PAGE);
    memcpy(before, img, words * sizeof *img);
    refused("user 256: 2", nord_give(img, words, 256, 1), NORD_ARGUMENT);
    refused("user 2^32: 2", nord_address(img, words, WIDE, 0, 0), NORD_ARGUMENT);
    refused("file 2^32: 2", nord_grow(img, words, 0, WIDE), NORD_ARGUMENT);
    refused("position 2^32: 4", nord_address(img, words, 0, 0, WIDE), NORD_MISSING);
    refused("give 2^32 + 1 pages: 2", nord_give(img, words, 0, WIDE + 1), NORD_ARGUMENT);
    refused("take 2^32 + 1 pages: 2", nord_take(img, words, 0, WIDE + 1), NORD_ARGUMENT);
    refused("a run of 2^32 + 1 pages: 2", nord_create_contiguous(img, words, 0, TEXT("LONG"), TEXT(""), 0, WIDE + 1), NORD_ARGUMENT);
    refused("bit page 2^32 + 1: 2", nord_format(img, words, TEXT("YARD"), WIDE + 1), NORD_ARGUMENT);
    holds_not("page 2^32: 2", nord_who_holds(img, words, WIDE), NORD_ARGUMENT, 0, 0, 0);
    holds_not("page 154: 2", nord_who_holds(img, words, words / PAGE), NORD_ARGUMENT, 0, 0, 0);
    refused("bit page 154: 2", nord_format(img, words, TEXT("YARD"), 154), NORD_ARGUMENT);
    refused("a name of 17 bytes: 2", nord_create_user(img, words, TEXT("SEVENTEEN-LETTERS")), NORD_ARGUMENT);
    refused("user 1: 4", nord_give(img, words, 1, 1), NORD_MISSING);
    refused("DOCK again: 5", nord_create_user(img, words, TEXT("DOCK")), NORD_TAKEN);
    refused("grow of a contiguous file: 6", nord_grow(img, words, 0, 1), NORD_KIND);
    refused("delete of a user with files: 7", nord_delete_user(img, words, 0), NORD_HAS_FILES);
    refused("take 89 of 88: 9", nord_take(img, words, 0, 89), NORD_ALLOWANCE);
    refused("give 49 of 48: 10", nord_give(img, words, 0, 49), NORD_UNRESERVED);
    refused("no run of 78 pages: 11", nord_create_contiguous(img, words, 0, TEXT("LONG"), TEXT(""), 0, 78), NORD_NO_RUN);
    told("refused calls changed nothing", memcmp(before, img, words * sizeof *img) == 0);
    free(before);
}

/* Everything back again. */
static void way_back(uint16_t *img, size_t words)
{
    done("shrink", nord_shrink(img, words, 0, 0), 0);
    refused("shrink of an empty file: 6", nord_shrink(img, words, 0, 0), NORD_KIND);
    done("delete RUN", nord_delete_file(img, words, 0, 1), 0);
    holds("page 153 is free", nord_who_holds(img, words, 153), NORD_FREE, 0, 0, 0);
    done("delete READS", nord_delete_file(img, words, 0, 0), 0);
    done("take 100", nord_take(img, words, 0, 100), 0);
    done("delete DOCK", nord_delete_user(img, words, 0), 0);
    told("unreserved 148", unreserved(img) == 148);
    done("check visits 6", nord_check(img, words), 6);
    img[1023]++;
    broken("a page too many unreserved: rule 10", nord_check(img, words), NORD_RULE_COUNTS, 0, 1022);
    holds_not("who holds page 0, then: 3, rule 10", nord_who_holds(img, words, 0), NORD_UNSOUND, NORD_RULE_COUNTS, 0, 1022);
}

/* The volume of 154 pages with its first user: user index 1, user page 2, object index 3, bit page 77. Each time one thing is wrong. */
static void places(void)
{
    size_t words = 154 * PAGE;
    uint16_t *img = blank(154);
    nord_format_default(img, words, TEXT("YARD"));
    nord_create_user(img, words, TEXT("DOCK"));
    img[2 * PAGE + 17] = 1;
    broken("one page used, none given: page 2, word 16", nord_check(img, words), NORD_RULE_USERS, 2, 16);
    img[2 * PAGE + 17] = 0;
    img[1023]++;
    broken("unreserved one too many: page 0, word 1,022", nord_check(img, words), NORD_RULE_COUNTS, 0, 1022);
    img[1023]--;
    img[77 * PAGE + 6] = 1 << 4;
    broken("the bit of page 100: page 77, word 6", nord_check(img, words), NORD_RULE_BITS, 77, 6);
    img[77 * PAGE + 6] = 0;
    done("nothing is wrong", nord_check(img, words), 5);
    free(img);
}

/* The holders that small volumes lack: object subindex and a file's subindex block; and all 256 users. */
static void great_volume(void)
{
    size_t pages = 700, words = pages * PAGE;
    uint16_t *img = blank(pages);
    char name[16];
    unsigned n, right = 0;
    done("700 pages, bit page 1", nord_format(img, words, TEXT("YARD"), 1), 0);
    for (n = 0; n < 256; n++) {
        sprintf(name, "N-%u", n);
        right += nord_create_user(img, words, TEXT(name)).value == n;
    }
    told("256 users, 0 to 255", right == 256);
    refused("one more: 8", nord_create_user(img, words, TEXT("MORE")), NORD_FULL);
    done("give 520 to user 255", nord_give(img, words, 255, 520), 0);
    done("a file of user 255", nord_create_indexed(img, words, 255, TEXT("LONG"), TEXT("DATA"), 0), 0);
    for (n = right = 0; n < 513; n++)
        right += nord_grow(img, words, 255, 0).number == NORD_DONE;
    told("grown 513 times", right == 513);
    told("516 pages used", used_by_255(img) == 516);
    holds("object subindex", nord_who_holds(img, words, pointed(img, 1016)), NORD_OBJECT_SUBINDEX, 0, 0, 0);
    n = nord_address(img, words, 255, 0, 512).value;
    holds("position 512", nord_who_holds(img, words, n), NORD_FILE_DATA, 255, 0, 512);
    holds("index block 1 after it", nord_who_holds(img, words, n + 1), NORD_FILE_INDEX, 255, 0, 1);
    holds("subindex block after that", nord_who_holds(img, words, n + 2), NORD_FILE_SUBINDEX, 255, 0, 0);
    holds("object page 2,040", nord_who_holds(img, words, nord_address(img, words, 255, 0, 0).value - 1), NORD_OBJECT_PAGE, 0, 0, 2040);
    holds("object index block 3", nord_who_holds(img, words, nord_address(img, words, 255, 0, 0).value - 2), NORD_OBJECT_INDEX, 0, 0, 3);
    free(img);
}

/* A holder that is none: free. */
#define NOBODY {NORD_FREE, 0, 0, 0}

/* Document 01's volume of 16 pages: user index 1, user page 2, object index 3, object page 4, data page 5, index block 6, bit page 8. */
static uint16_t *yard16(void)
{
    size_t words = 16 * PAGE;
    uint16_t *img = blank(16);
    nord_format_default(img, words, TEXT("YARD"));
    nord_create_user(img, words, TEXT("DOCK"));
    nord_give(img, words, 0, 5);
    nord_create_indexed(img, words, 0, TEXT("READS"), TEXT("DATA"), 0);
    nord_grow(img, words, 0, 0);
    return img;
}

/* A word of that volume that breaks a rule, for each of them, and the place that is told. */
static void rules(void)
{
    static const struct {
        const char *what;
        size_t at;
        uint16_t value;
        nord_reply right;
    } wrongs[] = {
        {"no volume name", 1008, 0, {NORD_UNSOUND, NORD_RULE_VOLUME, 0, {0, 1008}, NOBODY, NOBODY}},
        {"an object pointer with both flags", 1016, 0xC000, {NORD_UNSOUND, NORD_RULE_POINTERS, 0, {0, 1016}, NOBODY, NOBODY}},
        {"slot 8 of the user index", 1 * PAGE + 17, 5, {NORD_UNSOUND, NORD_RULE_USER_INDEX, 0, {1, 16}, NOBODY, NOBODY}},
        {"user 0 says 1", 2 * PAGE + 18, 1, {NORD_UNSOUND, NORD_RULE_USERS, 0, {2, 18}, NOBODY, NOBODY}},
        {"an object page past the end", 3 * PAGE + 1, 16, {NORD_UNSOUND, NORD_RULE_OBJECT_BLOCKS, 0, {3, 0}, NOBODY, NOBODY}},
        {"an owner who is not there", 4 * PAGE + 16, 1, {NORD_UNSOUND, NORD_RULE_OBJECTS, 0, {4, 16}, NOBODY, NOBODY}},
        {"bytes of no whole page", 4 * PAGE + 29, 1, {NORD_UNSOUND, NORD_RULE_SHAPES, 0, {4, 28}, NOBODY, NOBODY}},
        {"the object page as a data page", 6 * PAGE + 1, 4,
         {NORD_UNSOUND, NORD_RULE_HOLDERS, 0, {4, 0}, {NORD_OBJECT_PAGE, 0, 0, 0}, {NORD_FILE_DATA, 0, 0, 0}}},
        {"no bit set", 8 * PAGE, 0, {NORD_UNSOUND, NORD_RULE_BITS, 0, {8, 0}, NOBODY, NOBODY}},
        {"a page too many unreserved", 1023, 6, {NORD_UNSOUND, NORD_RULE_COUNTS, 0, {0, 1022}, NOBODY, NOBODY}},
    };
    size_t words = 16 * PAGE, n;
    uint16_t *img = yard16();
    for (n = 0; n < sizeof wrongs / sizeof wrongs[0]; n++) {
        uint16_t kept = img[wrongs[n].at];
        img[wrongs[n].at] = wrongs[n].value;
        is(wrongs[n].what, nord_check(img, words), wrongs[n].right);
        img[wrongs[n].at] = kept;
    }
    done("all put right again", nord_check(img, words), 8);
    free(img);
}

/* That volume with a run of two pages, 14 and 15, as file 1: its pointer's page is word 63 of page 4. */
static void held_twice(void)
{
    static const nord_holder index = {NORD_FILE_INDEX, 0, 0, 0}, data = {NORD_FILE_DATA, 0, 0, 0};
    static const nord_holder run_0 = {NORD_FILE_DATA, 0, 1, 0}, run_1 = {NORD_FILE_DATA, 0, 1, 1};
    size_t words = 16 * PAGE;
    uint16_t *img = yard16();
    done("a run of two pages", nord_create_contiguous(img, words, 0, TEXT("RUN"), TEXT(""), 0, 2), 1);
    img[6 * PAGE + 1] = 15;
    twice("page 15: data 0 of file 0, data 1 of file 1", nord_check(img, words), 15, data, run_1);
    img[6 * PAGE + 1] = 5;
    img[4 * PAGE + 63] = 6;
    twice("page 6: an index block before a data page", nord_check(img, words), 6, index, run_0);
    img[6 * PAGE + 1] = 6;
    twice("page 6, held three times: the first two", nord_check(img, words), 6, index, data);
    img[6 * PAGE + 1] = 5;
    img[4 * PAGE + 63] = 5;
    twice("pages 5 and 6: the lower", nord_check(img, words), 5, data, run_0);
    twice("a call that changes says it too", nord_grow(img, words, 0, 0), 5, data, run_0);
    free(img);
}

/* Each call that tests for it, format and the listing aside, says where an image is broken. */
static void every_call(void)
{
    size_t words = 16 * PAGE;
    uint16_t *img = yard16(), *before = blank(16);
    uint16_t data[PAGE] = {0};
    img[8 * PAGE] ^= 1 << 9;
    memcpy(before, img, words * sizeof *img);
    broken("check: page 8, word 0", nord_check(img, words), NORD_RULE_BITS, 8, 0);
    broken("find user", nord_find_user(img, words, TEXT("DOCK")), NORD_RULE_BITS, 8, 0);
    broken("find file", nord_find_file(img, words, 0, TEXT("READS"), TEXT("DATA")), NORD_RULE_BITS, 8, 0);
    broken("address", nord_address(img, words, 0, 0, 0), NORD_RULE_BITS, 8, 0);
    holds_not("who holds", nord_who_holds(img, words, 5), NORD_UNSOUND, NORD_RULE_BITS, 8, 0);
    told("read: an empty part", nord_read_page(img, words, 0, 0, 0).length == 0);
    broken("create user", nord_create_user(img, words, TEXT("GATE")), NORD_RULE_BITS, 8, 0);
    broken("delete user", nord_delete_user(img, words, 0), NORD_RULE_BITS, 8, 0);
    broken("give", nord_give(img, words, 0, 1), NORD_RULE_BITS, 8, 0);
    broken("take", nord_take(img, words, 0, 1), NORD_RULE_BITS, 8, 0);
    broken("create indexed", nord_create_indexed(img, words, 0, TEXT("MORE"), TEXT(""), 0), NORD_RULE_BITS, 8, 0);
    broken("create contiguous", nord_create_contiguous(img, words, 0, TEXT("MORE"), TEXT(""), 0, 1), NORD_RULE_BITS, 8, 0);
    broken("grow", nord_grow(img, words, 0, 0), NORD_RULE_BITS, 8, 0);
    broken("shrink", nord_shrink(img, words, 0, 0), NORD_RULE_BITS, 8, 0);
    broken("delete file", nord_delete_file(img, words, 0, 0), NORD_RULE_BITS, 8, 0);
    broken("write", nord_write_page(img, words, 0, 0, 0, data, PAGE), NORD_RULE_BITS, 8, 0);
    broken("note open", nord_note_open(img, words, 0, 0), NORD_RULE_BITS, 8, 0);
    broken("convert to apostrophes, though all are: 3 and not 12", nord_convert_to_apostrophe(img, words), NORD_RULE_BITS, 8, 0);
    broken("convert to zeros", nord_convert_to_zeros(img, words), NORD_RULE_BITS, 8, 0);
    refused("a wrong argument comes first: 2", nord_note_open(img, words, 256, 0), NORD_ARGUMENT);
    told("none changed anything", memcmp(before, img, words * sizeof *img) == 0);
    free(before);
    free(img);
}

/* The listing of document 01's example, into buffers that are too short, of the right length and longer; and of a refused image. */
static void listing(void)
{
    static const char text[] = "VOLUME YARD PAGES 16 RESERVED 8 UNRESERVED 5\n"
                               "USER 0 DOCK GIVEN 5 USED 2\n"
                               "FILE 0 READS:DATA PAGES 1 INDEXED\n";
    size_t words = 16 * PAGE, length = strlen(text);
    uint16_t *img = yard16();
    uint8_t out[200];
    told("the listing's length, asked with no room", nord_list(img, words, out, 0) == length);
    memset(out, '#', sizeof out);
    told("the listing with room for 10 bytes", nord_list(img, words, out, 10) == length && memcmp(out, text, 10) == 0 && out[10] == '#');
    told("the listing", nord_list(img, words, out, sizeof out) == length && memcmp(out, text, length) == 0 && out[length] == '#');
    img[1023] = 6;
    told("REFUSED 3 RULE 10", nord_list(img, words, out, sizeof out) == 18 && memcmp(out, "REFUSED 3 RULE 10\n", 18) == 0);
    told("REFUSED 1", nord_list(img, 1023, out, sizeof out) == 10 && memcmp(out, "REFUSED 1\n", 10) == 0);
    free(img);
}

/* Names as they are written and read: a short one ends in an apostrophe or a zero byte, and what stands behind that is nobody's. */
static void names(void)
{
    static const char text[] = "VOLUME YARD PAGES 16 RESERVED 8 UNRESERVED 5\n"
                               "USER 0 DOCK GIVEN 5 USED 2\n"
                               "FILE 0 READS:DATA PAGES 1 INDEXED\n"
                               "FILE 1 FIFTEEN-LETTERS: PAGES 0 EMPTY\n";
    size_t words = 16 * PAGE, length = strlen(text);
    uint16_t *img = yard16(), *user = img + 2 * PAGE, *file = img + 4 * PAGE + 32;
    uint8_t out[200];
    told("YARD is written with an apostrophe", img[1008] == 0x5941 && img[1009] == 0x5244 && img[1010] == 0x2700 && img[1011] == 0);
    done("a name of 15 letters, and no type", nord_create_indexed(img, words, 0, TEXT("FIFTEEN-LETTERS"), TEXT(""), 0), 1);
    told("its 16th byte is the apostrophe", file[8] == 0x5327);
    told("no type is 0x2700 and 0", file[9] == 0x2700 && file[10] == 0);
    refused("an apostrophe in an argument", nord_find_user(img, words, TEXT("DOCK'")), NORD_ARGUMENT);
    img[1010] = 0x274F, img[1011] = 0x6C64, user[3] = 0x0041, file[10] = 0x4441;
    done("find DOCK, with leftovers behind a zero byte", nord_find_user(img, words, TEXT("DOCK")), 0);
    refused("DOCK, taken with another fill", nord_create_user(img, words, TEXT("DOCK")), NORD_TAKEN);
    refused("a name and no type, taken with another fill", nord_create_indexed(img, words, 0, TEXT("FIFTEEN-LETTERS"), TEXT(""), 0), NORD_TAKEN);
    told("the listing without what stands behind", nord_list(img, words, out, sizeof out) == length && memcmp(out, text, length) == 0);
    img[1008] = 0x2741;
    broken("an apostrophe first in the volume name", nord_check(img, words), NORD_RULE_VOLUME, 0, 1008);
    free(img);
}

/* Document 01's volume with a second file, LOG of no type, to zeros and back. */
static void there_and_back(void)
{
    size_t words = 16 * PAGE;
    uint16_t *img = yard16(), *before = blank(16), *user = img + 2 * PAGE, *file = img + 4 * PAGE, *log = file + 32;
    nord_create_indexed(img, words, 0, TEXT("LOG"), TEXT(""), 0);
    memcpy(before, img, words * sizeof *img);
    refused("to apostrophes, where all are: 12", nord_convert_to_apostrophe(img, words), NORD_FILL);
    refused("to zeros, of 7 pages: 1", nord_convert_to_zeros(img, 7 * PAGE), NORD_SIZE);
    told("refused conversions changed nothing", memcmp(before, img, words * sizeof *img) == 0);
    done("to zeros", nord_convert_to_zeros(img, words), 0);
    told("YARD is 0x5941, 0x5244, 0", img[1008] == 0x5941 && img[1009] == 0x5244 && img[1010] == 0 && img[1011] == 0);
    told("DOCK is 0x444F, 0x434B, 0", user[1] == 0x444F && user[2] == 0x434B && user[3] == 0 && user[4] == 0);
    told("READS ends in 0x5300, DATA stays", file[3] == 0x5300 && file[4] == 0 && file[9] == 0x4441 && file[10] == 0x5441);
    told("LOG ends in 0x4700, its type is 0, 0", log[2] == 0x4700 && log[3] == 0 && log[9] == 0 && log[10] == 0);
    done("check visits 8", nord_check(img, words), 8);
    done("find LOG", nord_find_file(img, words, 0, TEXT("LOG"), TEXT("")), 1);
    refused("to zeros again: 12", nord_convert_to_zeros(img, words), NORD_FILL);
    done("and back", nord_convert_to_apostrophe(img, words), 0);
    told("DOCK is 0x444F, 0x434B, 0x2700", user[1] == 0x444F && user[2] == 0x434B && user[3] == 0x2700 && user[4] == 0);
    told("the same words as before", memcmp(before, img, words * sizeof *img) == 0);
    free(before);
    free(img);
}

/* Neither way: a name in the other fill, and leftovers. A name of 16 bytes has no fill and is in nobody's way. */
static void neither_way(void)
{
    size_t words = 16 * PAGE;
    uint16_t *img = yard16(), *before = blank(16), *user = img + 2 * PAGE;
    nord_convert_to_zeros(img, words);
    done("a user with an apostrophe", nord_create_user(img, words, TEXT("GATE")), 1);
    memcpy(before, img, words * sizeof *img);
    refused("both fills, to apostrophes: 12", nord_convert_to_apostrophe(img, words), NORD_FILL);
    refused("both fills, to zeros: 12", nord_convert_to_zeros(img, words), NORD_FILL);
    told("neither changed anything", memcmp(before, img, words * sizeof *img) == 0);
    nord_delete_user(img, words, 1);
    user[33] = 0x4741, user[34] = 0x2754;
    done("an entry that is not used is in nobody's way", nord_convert_to_apostrophe(img, words), 0);
    told("and stays", user[32] == 0 && user[33] == 0x4741 && user[34] == 0x2754 && user[35] == 0);
    user[4] = 0x4F4C;
    refused("leftovers, to apostrophes: 12", nord_convert_to_apostrophe(img, words), NORD_FILL);
    refused("leftovers, to zeros: 12", nord_convert_to_zeros(img, words), NORD_FILL);
    nord_format_default(img, words, TEXT("SIXTEEN-LETTERS1"));
    memcpy(before, img, words * sizeof *img);
    done("nothing short, to apostrophes", nord_convert_to_apostrophe(img, words), 0);
    done("nothing short, to zeros", nord_convert_to_zeros(img, words), 0);
    told("nothing changed", memcmp(before, img, words * sizeof *img) == 0);
    free(before);
    free(img);
}

/* Document 01's volume after a power cut: unreserved, DOCK's used count, data page 5 marked free and page 12 reserved. Page 16 is not there, and
 * its bit is nobody's. */
static uint16_t *stale16(void)
{
    uint16_t *img = yard16(), *bits = img + 8 * PAGE;
    img[1023] = 9, img[2 * PAGE + 17] = 0;
    bits[0] = 0x115F, bits[1] = 0xFFFF;
    return img;
}

/* A list whose records no salvage has written. */
static void unwritten(nord_change *list, size_t changes)
{
    memset(list, 0xEE, changes * sizeof *list);
}

/* Stale bits and counts are mended, and each changed word is told; a second salvage has nothing to tell. */
static void salvages(void)
{
    size_t words = 16 * PAGE;
    uint16_t *img = stale16(), *sound = yard16();
    nord_change list[4], fresh[4];
    unwritten(list, 4), unwritten(fresh, 4);
    sound[8 * PAGE + 1] = 0xFFFF;
    broken("page 5 is marked free", nord_check(img, words), NORD_RULE_BITS, 8, 0);
    done("salvage changes 3 words", nord_salvage(img, words, list, 4), 3);
    told("unreserved first: 9 becomes 5", is_change(list[0], 0, 1023, 9, 5));
    told("then DOCK's used count: 0 becomes 2", is_change(list[1], 2, 17, 0, 2));
    told("then the bits: 0x115F become 0x17F", is_change(list[2], 8, 0, 0x115F, 0x17F));
    told("the record past them stays", memcmp(list + 3, fresh, sizeof *list) == 0);
    told("all other words stay, and the bit of page 16", memcmp(img, sound, words * sizeof *img) == 0);
    done("check visits 8", nord_check(img, words), 8);
    unwritten(list, 4);
    done("a second salvage changes nothing", nord_salvage(img, words, list, 4), 0);
    done("a sound image needs no list", nord_salvage(img, words, NULL, 0), 0);
    told("both tell nothing", memcmp(list, fresh, sizeof list) == 0 && memcmp(img, sound, words * sizeof *img) == 0);
    img[2 * PAGE + 16] = 1, img[1022] = 7;
    done("used above given, and both high halves", nord_salvage(img, words, list, 2), 2);
    told("the high half of unreserved", is_change(list[0], 0, 1022, 7, 0));
    told("the high half of a used count", is_change(list[1], 2, 16, 1, 0));
    told("the same volume again", memcmp(img, sound, words * sizeof *img) == 0);
    told("16 pages need 515 changes at most", NORD_CHANGES(16) == 515 && NORD_CHANGES(16384) == 1538);
    free(sound);
    free(img);
}

/* Refused salvages: what is lent stays as it was. */
static void salvages_not(void)
{
    size_t words = 16 * PAGE;
    uint16_t *img = stale16(), *before = blank(16), *user = img + 2 * PAGE, *file = img + 4 * PAGE;
    nord_change list[4], fresh[4];
    unwritten(list, 4), unwritten(fresh, 4);
    memcpy(before, img, words * sizeof *img);
    refused("three words and two changes: 14", nord_salvage(img, words, list, 2), NORD_LIST);
    refused("three words and no list: 14", nord_salvage(img, words, NULL, 0), NORD_LIST);
    refused("7 pages: 1", nord_salvage(img, 7 * PAGE, list, 4), NORD_SIZE);
    user[15] = 1;
    refused("DOCK holds 2 pages and was given 1: 13", nord_salvage(img, words, list, 4), NORD_OVERDRAWN);
    refused("and 13 comes before 14", nord_salvage(img, words, list, 0), NORD_OVERDRAWN);
    user[15] = 11;
    refused("16 pages less 11 given less 6 of the system: 13", nord_salvage(img, words, list, 4), NORD_OVERDRAWN);
    file[29] = 1;
    broken("wrong bytes are not salvage's: 3", nord_salvage(img, words, list, 0), NORD_RULE_SHAPES, 4, 28);
    file[29] = 2048, user[15] = 5;
    told("the list stays", memcmp(list, fresh, sizeof list) == 0);
    told("and the image", memcmp(img, before, words * sizeof *img) == 0);
    user[15] = 10;
    done("16 pages less 10 less 6: unreserved is 0", nord_salvage(img, words, list, 4), 3);
    told("which is told", is_change(list[0], 0, 1023, 9, 0) && unreserved(img) == 0);
    free(before);
    free(img);
}

/* The yard's steps as a list, up to one that is refused and one after it; names and types are parts of the text. */
static const uint8_t script_text[] = "YARDDOCKREADSDATARUN";

static const nord_step script[] = {
    {.call = NORD_CALL_FORMAT_DEFAULT, .name_at = 0, .name_bytes = 4},
    {.call = NORD_CALL_CREATE_USER, .name_at = 4, .name_bytes = 4},
    {.call = NORD_CALL_GIVE, .user = 0, .count = 100},
    {.call = NORD_CALL_CREATE_INDEXED, .name_at = 8, .name_bytes = 5, .type_at = 13, .type_bytes = 4, .created = 0x12345},
    {.call = NORD_CALL_GROW, .file = 0},
    {.call = NORD_CALL_CREATE_CONTIGUOUS, .name_at = 17, .name_bytes = 3, .created = 7, .count = 10},
    {.call = NORD_CALL_ADDRESS, .file = 1, .count = 9},
    {.call = NORD_CALL_WRITE_PAGE, .file = 1, .count = 9},
    {.call = NORD_CALL_NOTE_OPEN, .file = 0},
    {.call = NORD_CALL_FIND_FILE, .name_at = 17, .name_bytes = 3},
    {.call = NORD_CALL_GROW, .file = 1},
    {.call = NORD_CALL_DELETE_FILE, .file = 0},
};

#define STEPS (sizeof script / sizeof script[0])

/* What the steps before the refused one give. */
static const uint32_t values[STEPS - 2] = {0, 0, 0, 0, 5, 1, 153, 0, 0, 1};

/* The same calls one by one. */
static void singly(uint16_t *img, size_t words, const uint16_t *data)
{
    nord_format_default(img, words, TEXT("YARD"));
    nord_create_user(img, words, TEXT("DOCK"));
    nord_give(img, words, 0, 100);
    nord_create_indexed(img, words, 0, TEXT("READS"), TEXT("DATA"), 0x12345);
    nord_grow(img, words, 0, 0);
    nord_create_contiguous(img, words, 0, TEXT("RUN"), TEXT(""), 7, 10);
    nord_write_page(img, words, 0, 1, 9, data, PAGE);
    nord_note_open(img, words, 0, 0);
}

/* A run of some steps over the script's text, without page data and without a list. */
static size_t run(uint16_t *img, size_t words, const nord_step *steps, size_t step_numbers, nord_reply *replies, size_t reply_numbers)
{
    return nord_run(img, words, steps, step_numbers, script_text, sizeof script_text - 1, NULL, 0, NULL, 0, replies, reply_numbers);
}

/* The whole script, and what it leaves. */
static void by_one_run(uint16_t *img, uint16_t *single, size_t words)
{
    uint16_t data[PAGE];
    nord_reply replies[STEPS];
    size_t n, made;
    for (n = 0; n < PAGE; n++)
        data[n] = (uint16_t)(5 * n + 3);
    memset(replies, 0x55, sizeof replies);
    made = nord_run(img, words, script, NORD_STEPS(STEPS), script_text, sizeof script_text - 1, data, PAGE, NULL, 0, replies, NORD_REPLIES(STEPS));
    told("a run stops after its first refusal", made == STEPS - 1);
    for (n = 0; n < STEPS - 2; n++)
        done("a step of the run", replies[n], values[n]);
    refused("the refused step: 6", replies[STEPS - 2], NORD_KIND);
    told("the reply after it stays", replies[STEPS - 1].number == 0x55555555 && replies[STEPS - 1].second.position == 0x55555555);
    singly(single, words, data);
    told("the image is the single calls'", memcmp(img, single, words * sizeof *img) == 0);
}

/* Runs that are cut short: by their steps, by their room, by a length of 0. */
static void short_runs(uint16_t *img, size_t words)
{
    nord_reply replies[STEPS];
    memset(replies, 0x55, sizeof replies);
    told("two steps and a part of one: 2", run(img, words, script, NORD_STEPS(3) - 1, replies, NORD_REPLIES(STEPS)) == 2);
    told("room for one reply and a part of one: 1", run(img, words, script, NORD_STEPS(STEPS), replies, NORD_REPLIES(2) - 1) == 1);
    told("no other reply is written", replies[2].number == 0x55555555);
    told("no steps: 0", run(img, words, NULL, 0, replies, NORD_REPLIES(STEPS)) == 0);
    told("no room: 0", run(img, words, script, NORD_STEPS(STEPS), NULL, 0) == 0);
    told("nothing at all: 0", nord_run(NULL, 0, NULL, 0, NULL, 0, NULL, 0, NULL, 0, NULL, 0) == 0);
}

/* A run of one step, which is refused. */
static nord_reply refused_step(uint16_t *img, size_t words, nord_step step)
{
    nord_reply reply = {.number = NORD_DONE};
    told("one reply", run(img, words, &step, NORD_STEPS(1), &reply, NORD_REPLIES(1)) == 1);
    return reply;
}

/* Steps that are no calls, or that use a part outside what is lent. */
static void wrong_steps(uint16_t *img, size_t words)
{
    nord_step no_call = {.call = 23}, no_name = {.call = NORD_CALL_FIND_USER, .name_at = sizeof script_text - 4, .name_bytes = 4};
    nord_step no_type = {.call = NORD_CALL_FIND_FILE, .name_at = 17, .name_bytes = 3, .type_at = UINT32_MAX, .type_bytes = 4};
    nord_step no_data = {.call = NORD_CALL_WRITE_PAGE, .file = 1};
    refused("there is no step 23: 2", refused_step(img, words, no_call), NORD_ARGUMENT);
    no_call.call = 0;
    refused("nor a step 0: 2", refused_step(img, words, no_call), NORD_ARGUMENT);
    refused("on 7 pages: 1", refused_step(img, 7 * PAGE, no_call), NORD_SIZE);
    refused("a name that ends after the text: 2", refused_step(img, words, no_name), NORD_ARGUMENT);
    refused("a type that begins after the text: 2", refused_step(img, words, no_type), NORD_ARGUMENT);
    refused("no page data: 2", refused_step(img, words, no_data), NORD_ARGUMENT);
    img[1023]++;
    broken("a step on an unsound image: 3", refused_step(img, words, script[4]), NORD_RULE_COUNTS, 0, 1022);
    img[1023]--;
}

/* Both conversions as steps, and one that is refused. */
static void converting_steps(void)
{
    static const nord_step steps[] = {
        {.call = NORD_CALL_CONVERT_TO_ZEROS},
        {.call = NORD_CALL_CHECK},
        {.call = NORD_CALL_CONVERT_TO_APOSTROPHE},
        {.call = NORD_CALL_CONVERT_TO_APOSTROPHE},
        {.call = NORD_CALL_CONVERT_TO_ZEROS},
    };
    size_t words = 16 * PAGE;
    uint16_t *img = yard16(), *single = yard16();
    nord_reply replies[5];
    told("converted twice, then refused", run(img, words, steps, NORD_STEPS(5), replies, NORD_REPLIES(5)) == 4);
    done("step 21: to zeros", replies[0], 0);
    done("a check after it visits 8", replies[1], 8);
    done("step 20: to apostrophes", replies[2], 0);
    refused("step 20 again: 12", replies[3], NORD_FILL);
    told("there and back by steps", memcmp(img, single, words * sizeof *img) == 0);
    refused("step 21 on 7 pages: 1", refused_step(img, 7 * PAGE, steps[0]), NORD_SIZE);
    free(single);
    free(img);
}

/* A step that asked who holds a page: the holder is the reply's first. */
static void holds_first(const char *what, nord_reply got, uint32_t kind, uint32_t user, uint32_t file, uint32_t position)
{
    nord_reply right = {.number = NORD_DONE, .first = {kind, user, file, position}};
    is(what, got, right);
}

/* Who holds a page and reading a page as steps, each refused too. */
static void asking_steps(void)
{
    static const nord_step steps[] = {
        {.call = NORD_CALL_WHO_HOLDS, .count = 5},
        {.call = NORD_CALL_WHO_HOLDS, .count = 8},
        {.call = NORD_CALL_WHO_HOLDS, .count = 15},
        {.call = NORD_CALL_READ_PAGE, .user = 0, .file = 0, .count = 0},
        {.call = NORD_CALL_READ_PAGE, .user = 0, .file = 0, .count = 1},
        {.call = NORD_CALL_WHO_HOLDS, .count = 0},
    };
    nord_step past = {.call = NORD_CALL_WHO_HOLDS, .count = 16};
    nord_holder index = {NORD_FILE_INDEX, 0, 0, 0}, data = {NORD_FILE_DATA, 0, 0, 0};
    size_t words = 16 * PAGE;
    uint16_t *img = yard16(), *before = yard16();
    nord_reply replies[6];
    told("four answers, then refused", run(img, words, steps, NORD_STEPS(6), replies, NORD_REPLIES(6)) == 5);
    holds_first("step 6: page 5 is data", replies[0], NORD_FILE_DATA, 0, 0, 0);
    holds_first("page 8: bit file", replies[1], NORD_BIT_FILE, 0, 0, 0);
    holds_first("page 15 is free", replies[2], NORD_FREE, 0, 0, 0);
    done("step 16: the words of page 5", replies[3], 5 * PAGE);
    refused("position 1: 4", replies[4], NORD_MISSING);
    refused("page 16: 2", refused_step(img, words, past), NORD_ARGUMENT);
    told("asking changes nothing", memcmp(img, before, words * sizeof *img) == 0);
    refused("step 16 on 7 pages: 1", refused_step(img, 7 * PAGE, steps[3]), NORD_SIZE);
    img[6 * PAGE + 1] = 6;
    twice("page 6 is its own data page: 3", refused_step(img, words, steps[0]), 6, index, data);
    free(before);
    free(img);
}

/* A run of some steps with a list. */
static size_t run_list(uint16_t *img, size_t words, const nord_step *steps, size_t n, nord_change *list, size_t change_numbers, nord_reply *replies)
{
    return nord_run(img, words, steps, NORD_STEPS(n), script_text, sizeof script_text - 1, NULL, 0, list, change_numbers, replies, NORD_REPLIES(n));
}

/* Salvage as a step: a list that is too short, then one that has room; the steps after it have a sound image. */
static void salvaging_steps(void)
{
    static const nord_step steps[] = {
        {.call = NORD_CALL_SALVAGE},
        {.call = NORD_CALL_CHECK},
        {.call = NORD_CALL_GROW},
        {.call = NORD_CALL_SALVAGE},
    };
    size_t words = 16 * PAGE;
    uint16_t *img = stale16(), *single = stale16();
    nord_change list[4], singly[4], fresh[4];
    nord_reply replies[4];
    unwritten(list, 4), unwritten(singly, 4), unwritten(fresh, 4);
    told("a list of two changes and a part of one", run_list(img, words, steps, 4, list, NORD_CHANGE_NUMBERS(3) - 1, replies) == 1);
    refused("three words: 14", replies[0], NORD_LIST);
    refused("no list: 14", refused_step(img, words, steps[0]), NORD_LIST);
    told("list and image stay", memcmp(list, fresh, sizeof list) == 0 && memcmp(img, single, words * sizeof *img) == 0);
    told("salvaged, and three steps after it", run_list(img, words, steps, 4, list, NORD_CHANGE_NUMBERS(4), replies) == 4);
    done("step 22: three words", replies[0], 3);
    done("check visits 8", replies[1], 8);
    done("grow gives page 7", replies[2], 7);
    done("a salvage after it changes nothing", replies[3], 0);
    done("the same by single calls", nord_salvage(single, words, singly, 4), 3);
    done("which grow too", nord_grow(single, words, 0, 0), 7);
    told("the list is the single call's", memcmp(list, singly, sizeof list) == 0 && is_change(list[2], 8, 0, 0x115F, 0x17F));
    told("and so is the image", memcmp(img, single, words * sizeof *img) == 0);
    img[2 * PAGE + 15] = 1;
    refused("more used than given: 13", refused_step(img, words, steps[0]), NORD_OVERDRAWN);
    refused("step 22 on 7 pages: 1", refused_step(img, 7 * PAGE, steps[0]), NORD_SIZE);
    free(single);
    free(img);
}

static void runs(void)
{
    size_t words = 154 * PAGE;
    uint16_t *img = blank(154), *single = blank(154);
    told("a step's numbers", sizeof(nord_step) == NORD_STEPS(1) * sizeof(uint32_t));
    told("a change's numbers", sizeof(nord_change) == NORD_CHANGE_NUMBERS(1) * sizeof(uint32_t));
    told("a reply's numbers", sizeof(nord_reply) == NORD_REPLIES(1) * sizeof(uint32_t));
    by_one_run(img, single, words);
    wrong_steps(img, words);
    told("wrong steps changed nothing", memcmp(img, single, words * sizeof *img) == 0);
    short_runs(img, words);
    free(single);
    free(img);
}

/* Null is as good as any pointer where the length is 0. */
static void nulls(void)
{
    static const char text[] = "VOLUME YARD PAGES 16 RESERVED 6 UNRESERVED 10\n"
                               "USER 0 DOCK GIVEN 0 USED 0\n"
                               "FILE 0 READS: PAGES 0 EMPTY\n";
    size_t words = 16 * PAGE;
    uint16_t *img = blank(16);
    nord_format_default(img, words, TEXT("YARD"));
    nord_create_user(img, words, TEXT("DOCK"));
    refused("no image: 1", nord_check(NULL, 0), NORD_SIZE);
    refused("no image to change: 1", nord_give(NULL, 0, 0, 1), NORD_SIZE);
    refused("no image to convert: 1", nord_convert_to_zeros(NULL, 0), NORD_SIZE);
    refused("no image to salvage, and no list: 1", nord_salvage(NULL, 0, NULL, 0), NORD_SIZE);
    refused("no name: 2", nord_create_user(img, words, NULL, 0), NORD_ARGUMENT);
    done("no type", nord_create_indexed(img, words, 0, TEXT("READS"), NULL, 0, 0), 0);
    done("find a file of no type", nord_find_file(img, words, 0, TEXT("READS"), NULL, 0), 0);
    refused("no data: 2", nord_write_page(img, words, 0, 0, 0, NULL, 0), NORD_ARGUMENT);
    told("no room for a listing", nord_list(img, words, NULL, 0) == strlen(text));
    free(img);
}

int main(void)
{
    size_t words = 154 * PAGE;
    uint16_t *img = blank(154);
    lengths();
    packs();
    first_steps(img, words);
    pages_of_files(img, words);
    words_of_pages(img, words);
    refusals(img, words);
    way_back(img, words);
    places();
    great_volume();
    rules();
    held_twice();
    every_call();
    listing();
    names();
    there_and_back();
    neither_way();
    salvages();
    salvages_not();
    runs();
    converting_steps();
    asking_steps();
    salvaging_steps();
    nulls();
    free(img);
    printf("yard: %d cases, %d wrong\n", cases, wrong);
    return wrong != 0;
}
