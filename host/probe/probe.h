/* The proved searches for free pages by themselves, to be timed: target/host/libprobe.a, which host/library builds from crate probe. They are
 * no calls of the library, and nord.h does not have them.
 *
 * An image is `words` 16-bit words as in nord.h, P its pages. The bit file is the run of NORD_BIT_PAGES(P) pages that the master block's bit
 * pointer begins; the image need not be sound otherwise. Bits for pages from P on are not read. Nothing is changed.
 *
 * An image that cannot be searched has no page or more than NORD_MOST_PAGES, or a bit file that does not lie in 1 .. P-1 as a whole: both
 * functions give 0. */
#ifndef PROBE_H
#define PROBE_H

#include <stddef.h>
#include <stdint.h>

#ifdef __cplusplus
extern "C" {
#endif

/* The lowest free page from page `from` on, and P if there is none. */
size_t nord_probe_free(const uint16_t *image, size_t words, size_t from);

/* The highest start of n free pages in a row, and 0 if there is none or n is 0. */
size_t nord_probe_run(const uint16_t *image, size_t words, size_t n);

#ifdef __cplusplus
}
#endif

#endif
