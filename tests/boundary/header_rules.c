/* Which refusal a header gets that breaks a rule, and that it is the first rule's where it breaks several. */
#include "calls.h"
#include "check.h"
#include "tests.h"

static uint64_t judge(const struct fields *fields, uint8_t code)
{
    struct ondristela_layout layout;

    return open_one(fields, code, HOST_SIZE, &layout);
}

static void test_magics(void)
{
    struct fields fields = volume_m;

    fields.magic = "Vera";
    CHECK(judge(&fields, 0) == ONDRISTELA_REFUSED_NO_HEADER);

    fields = volume_m;
    fields.version = 3;
    CHECK(judge(&fields, 0) == ONDRISTELA_REFUSED_VERSION);
    fields.magic = "VERA";
    CHECK(judge(&fields, 0) == ONDRISTELA_ACCEPTED);
    fields.reserved = 1;
    CHECK(judge(&fields, 0) == ONDRISTELA_REFUSED_RESERVED);
}

/* Each header that is refused here breaks the next rule too, but for the last. */
static void test_order_of_rules(void)
{
    struct fields fields = volume_m;

    fields.reserved = 1;
    CHECK(judge(&fields, 0) == ONDRISTELA_ACCEPTED);
    fields.flags = 7;
    CHECK(judge(&fields, 0) == ONDRISTELA_REFUSED_RESERVED);
    fields.flags = 3;
    fields.sector_size = 0;
    CHECK(judge(&fields, 0) == ONDRISTELA_REFUSED_FLAGS);
    fields.flags = 0;
    fields.hidden_size = 512;
    CHECK(judge(&fields, 0) == ONDRISTELA_REFUSED_SECTOR_SIZE);
    fields.sector_size = 512;
    fields.encrypted_size = 512;
    CHECK(judge(&fields, 0) == ONDRISTELA_REFUSED_HIDDEN_SIZE);
    fields.hidden_size = 0;
    CHECK(judge(&fields, 0) == ONDRISTELA_REFUSED_DATA_AREA);
}

static void test_sizes(void)
{
    struct fields fields = volume_m;

    CHECK(judge(&volume_m, 1) == ONDRISTELA_REFUSED_HIDDEN_SIZE);
    CHECK(judge(&volume_n, 0) == ONDRISTELA_REFUSED_HIDDEN_SIZE);
    fields.data_size = fields.encrypted_size = 786944;
    CHECK(judge(&fields, 0) == ONDRISTELA_REFUSED_DATA_AREA);
    fields.data_size = fields.encrypted_size = UINT64_MAX - 511;
    CHECK(judge(&fields, 0) == ONDRISTELA_REFUSED_DATA_AREA);
}

void test_header_rules(void)
{
    test_magics();
    test_order_of_rules();
    test_sizes();
}
