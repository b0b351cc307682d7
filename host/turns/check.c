/* The check of one build of the library, called through the header that the build has: a reply has more numbers in some builds than in
 * others, and comes back in registers or in memory by their count. The first three are in all of them. host/landing links it to each. */
#include <nord.h>

void turns_check(const uint16_t *img, size_t words, uint32_t *told);

void turns_check(const uint16_t *img, size_t words, uint32_t *told)
{
    nord_reply reply = nord_check(img, words);
    told[0] = reply.number;
    told[1] = reply.rule;
    told[2] = reply.value;
}
