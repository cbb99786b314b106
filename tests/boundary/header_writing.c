/* Whether the headers that are written are byte by byte those of make_header, and open. */
#include "check.h"
#include "requests.h"
#include "tests.h"

/* At a main location and as a backup. */
static void test_volumes(void)
{
    struct request m = request_m, n = request_n;

    CHECK(writes(&m, &volume_m, &layout_m));
    CHECK(writes(&n, &volume_n, &layout_n));
    m.code = ONDRISTELA_LOCATION_STANDARD_BACKUP;
    CHECK(writes(&m, &volume_m, &layout_m));
    n.code = ONDRISTELA_LOCATION_HIDDEN_BACKUP;
    CHECK(writes(&n, &volume_n, &layout_n));
}

/* VERA in place of TRUE, and other versions. */
static void test_magics(void)
{
    struct request m = request_m, n = request_n;
    struct fields fields_m = volume_m, fields_n = volume_n;
    struct ondristela_layout expected_m = layout_m, expected_n = layout_n;

    m.magic = n.magic = fields_m.magic = fields_n.magic = "VERA";
    m.version = n.version = 2;
    fields_m.version = fields_n.version = expected_m.version = expected_n.version = 2;
    expected_m.magic = expected_n.magic = ONDRISTELA_MAGIC_VERA;
    m.min_program_version = 267;
    fields_m.min_program_version[0] = 0x01;
    fields_m.min_program_version[1] = 0x0B;
    expected_m.min_program_version = 267;
    CHECK(writes(&m, &fields_m, &expected_m));
    CHECK(writes(&n, &fields_n, &expected_n));
}

/* A start and a size that need more than four bytes. */
static void test_largest_host(void)
{
    struct request n = request_n;
    struct fields fields = volume_n;
    struct ondristela_layout expected = layout_n;

    n.host_size = expected.host_size = UINT64_C(1) << 50;
    n.data_start = fields.data_start = expected.data_start = UINT64_C(0x123456789A00);
    n.data_size = UINT64_C(0x23456789AC00);
    fields.hidden_size = fields.data_size = fields.encrypted_size = expected.data_size = n.data_size;
    CHECK(writes(&n, &fields, &expected));
}

void test_header_writing(void)
{
    test_volumes();
    test_magics();
    test_largest_host();
}
