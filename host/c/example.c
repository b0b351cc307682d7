/* A disk in memory: a volume with a user and a file, whose one page is written by a list of calls.
 *
 *     cc example.c $(pkg-config --cflags --libs nord) -o example && ./example
 */
#include <nord.h>

#include <stdio.h>
#include <string.h>

#define PAGES 154
#define WORDS ((size_t)PAGES * NORD_PAGE)

/* A name as the two arguments that a call wants. */
#define NAME(name) (const uint8_t *)(name), strlen(name)

static uint16_t img[WORDS];

/* A call that must be done; gives its value. */
static size_t done(const char *what, nord_reply reply)
{
    printf("%-18s number %u, value %u\n", what, (unsigned)reply.number, (unsigned)reply.value);
    return reply.value;
}

/* One list of calls, with one check for all: create READS:DATA, give it a page, write that page. How many were made. */
static size_t write_reads(size_t user, const uint16_t page[NORD_PAGE], nord_reply replies[3])
{
    const uint8_t text[] = "READSDATA";
    nord_step create = {.call = NORD_CALL_CREATE_INDEXED, .name_at = 0, .name_bytes = 5, .type_at = 5, .type_bytes = 4};
    nord_step grow = {.call = NORD_CALL_GROW, .file = 0};
    nord_step write = {.call = NORD_CALL_WRITE_PAGE, .file = 0, .count = 0, .data_at = 0};
    nord_step steps[3];
    create.user = grow.user = write.user = (uint32_t)user;
    steps[0] = create;
    steps[1] = grow;
    steps[2] = write;
    return nord_run(img, WORDS, steps, NORD_STEPS(3), text, sizeof text - 1, page, NORD_PAGE, NULL, 0, replies, NORD_REPLIES(3));
}

int main(void)
{
    uint16_t page[NORD_PAGE] = {0x4577, 0x6520}; /* "Ewe ", the high byte of each word first */
    nord_reply replies[3], check;
    nord_part part;
    size_t user, made;

    done("format YARD", nord_format_default(img, WORDS, NAME("YARD")));
    user = done("create user DOCK", nord_create_user(img, WORDS, NAME("DOCK")));
    done("give him 20 pages", nord_give(img, WORDS, user, 20));

    made = write_reads(user, page, replies);
    if (made == 0)
        return 1;
    printf("%u of 3 calls made, the last with number %u\n", (unsigned)made, (unsigned)replies[made - 1].number);

    part = nord_read_page(img, WORDS, user, 0, 0);
    if (part.length != NORD_PAGE || memcmp(img + part.offset, page, sizeof page) != 0)
        return 1;
    check = nord_check(img, WORDS);
    printf(check.number == NORD_DONE ? "sound, %u pages held\n" : "refused with %u\n",
           (unsigned)(check.number == NORD_DONE ? check.value : check.number));
    return check.number != NORD_DONE;
}
