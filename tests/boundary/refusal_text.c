/* Whether every answer has a sentence of its own, and a number that is no answer the one for those. */
#include <string.h>

#include "check.h"
#include "ondristela.h"
#include "tests.h"

static int same(uint64_t one, uint64_t other)
{
    return strcmp(ondristela_refusal_text(one), ondristela_refusal_text(other)) == 0;
}

void test_refusal_text(void)
{
    const uint64_t no_answer = ONDRISTELA_REFUSED_UNALIGNED + 1;
    uint64_t one, other;

    CHECK(strcmp(ondristela_refusal_text(ONDRISTELA_ACCEPTED), "accepted") == 0);
    CHECK(strcmp(ondristela_refusal_text(ONDRISTELA_REFUSED_HOST_SIZE),
                 "the host_size is below 262,656, above 2^50, or no multiple of 512") == 0);
    for (one = ONDRISTELA_ACCEPTED; one <= no_answer; one++)
        for (other = ONDRISTELA_ACCEPTED; other < one; other++)
            CHECK(!same(one, other));
    CHECK(strlen(ondristela_refusal_text(no_answer)) > 0);
    CHECK(same(no_answer, UINT64_MAX));
    CHECK(same(no_answer, UINT64_C(1) << 32));
}
