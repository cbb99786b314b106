/* Whether the refusals are the numbers of docs/RULES.md, the structs have no more than their numbers, and CRC-32 of the
 * nine digits is the published one. */
#include "check.h"
#include "ondristela.h"
#include "tests.h"

static void test_refusals(void)
{
    static const uint64_t refusals[20] = {
        ONDRISTELA_REFUSED_LENGTHS,     ONDRISTELA_REFUSED_CODE,        ONDRISTELA_REFUSED_HOST_SIZE,
        ONDRISTELA_REFUSED_NO_HEADER,   ONDRISTELA_REFUSED_VERSION,     ONDRISTELA_REFUSED_RESERVED,
        ONDRISTELA_REFUSED_FLAGS,       ONDRISTELA_REFUSED_SECTOR_SIZE, ONDRISTELA_REFUSED_HIDDEN_SIZE,
        ONDRISTELA_REFUSED_DATA_AREA,   ONDRISTELA_REFUSED_UNSOUND,     ONDRISTELA_REFUSED_NOT_NESTED,
        ONDRISTELA_REFUSED_IMAGE_SIZE,  ONDRISTELA_REFUSED_COUNT,       ONDRISTELA_REFUSED_BUFFER_SIZE,
        ONDRISTELA_REFUSED_OUTSIDE,     ONDRISTELA_REFUSED_LOCKED,      ONDRISTELA_REFUSED_PROTECTED,
        ONDRISTELA_REFUSED_MAGIC,       ONDRISTELA_REFUSED_UNALIGNED};
    uint64_t number;

    for (number = 1; number <= 20; number++)
        CHECK(refusals[number - 1] == number);
    CHECK(ONDRISTELA_ACCEPTED == 0);
}

static void test_structs(void)
{
    CHECK(sizeof(struct ondristela_layout) == 9 * sizeof(uint64_t));
    CHECK(offsetof(struct ondristela_layout, sector_size) == 8 * sizeof(uint64_t));
    CHECK(sizeof(struct ondristela_view) == 13 * sizeof(uint64_t));
    CHECK(offsetof(struct ondristela_view, protected_range) == 9 * sizeof(uint64_t));
    CHECK(offsetof(struct ondristela_view, locked) == 12 * sizeof(uint64_t));
}

static void test_crc32(void)
{
    static const uint8_t digits[9] = {'1', '2', '3', '4', '5', '6', '7', '8', '9'};

    CHECK(ondristela_crc32(digits, sizeof digits) == 0xCBF43926);
    CHECK(ondristela_crc32(digits, 0) == 0);
}

void test_constants(void)
{
    test_refusals();
    test_structs();
    test_crc32();
}
