/* Where the header of each location code lies, and which codes and host sizes are refused. */
#include "check.h"
#include "tests.h"
#include "volumes.h"

static int lies_at(uint8_t code, uint64_t host_size, uint64_t expected)
{
    uint64_t offset;

    fill(&offset, sizeof offset);
    return ondristela_location(code, host_size, &offset) == ONDRISTELA_ACCEPTED && offset == expected;
}

static int refuses_location(uint8_t code, uint64_t host_size, uint64_t refusal)
{
    uint64_t offset;

    fill(&offset, sizeof offset);
    return ondristela_location(code, host_size, &offset) == refusal && is_filled(&offset, sizeof offset);
}

void test_locations(void)
{
    CHECK(lies_at(ONDRISTELA_LOCATION_STANDARD, HOST_SIZE, 0));
    CHECK(lies_at(ONDRISTELA_LOCATION_HIDDEN, HOST_SIZE, 65536));
    CHECK(lies_at(ONDRISTELA_LOCATION_STANDARD_BACKUP, HOST_SIZE, 917504));
    CHECK(lies_at(ONDRISTELA_LOCATION_HIDDEN_BACKUP, HOST_SIZE, 983040));
    CHECK(lies_at(ONDRISTELA_LOCATION_HIDDEN, UINT64_C(1) << 50, 65536));
    CHECK(refuses_location(4, HOST_SIZE, ONDRISTELA_REFUSED_CODE));
    CHECK(refuses_location(255, 0, ONDRISTELA_REFUSED_CODE));
    CHECK(refuses_location(3, 262144, ONDRISTELA_REFUSED_HOST_SIZE));
    CHECK(refuses_location(3, 262657, ONDRISTELA_REFUSED_HOST_SIZE));
    CHECK(refuses_location(3, (UINT64_C(1) << 50) + 512, ONDRISTELA_REFUSED_HOST_SIZE));
    CHECK(refuses_location(3, UINT64_MAX, ONDRISTELA_REFUSED_HOST_SIZE));
}
