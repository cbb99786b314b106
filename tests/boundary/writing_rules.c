/* Which requests for a header are refused, on either side of each bound, and by which rule if they break several. */
#include "check.h"
#include "requests.h"
#include "tests.h"

static uint64_t write_lengths(size_t salt_size, size_t keys_size, size_t header_size)
{
    struct request request = request_m;

    request.salt_size = salt_size;
    request.keys_size = keys_size;
    request.header_size = header_size;
    return write_request(&request);
}

static void test_lengths(void)
{
    CHECK(write_lengths(0, 256, 512) == ONDRISTELA_REFUSED_LENGTHS);
    CHECK(write_lengths(63, 256, 512) == ONDRISTELA_REFUSED_LENGTHS);
    CHECK(write_lengths(65, 256, 512) == ONDRISTELA_REFUSED_LENGTHS);
    CHECK(write_lengths(64, 0, 512) == ONDRISTELA_REFUSED_LENGTHS);
    CHECK(write_lengths(64, 255, 512) == ONDRISTELA_REFUSED_LENGTHS);
    CHECK(write_lengths(64, 257, 512) == ONDRISTELA_REFUSED_LENGTHS);
    CHECK(write_lengths(64, 256, 0) == ONDRISTELA_REFUSED_LENGTHS);
    CHECK(write_lengths(64, 256, 511) == ONDRISTELA_REFUSED_LENGTHS);
    CHECK(write_lengths(64, 256, 513) == ONDRISTELA_REFUSED_LENGTHS);
    CHECK(write_lengths(64, 256, 512) == ONDRISTELA_ACCEPTED);
}

static uint64_t write_magic(const char *magic)
{
    struct request request = request_m;

    request.magic = magic;
    return write_request(&request);
}

static void test_magics(void)
{
    CHECK(write_magic("Vera") == ONDRISTELA_REFUSED_MAGIC);
    CHECK(write_magic("VER") == ONDRISTELA_REFUSED_MAGIC);
    CHECK(write_magic("EURT") == ONDRISTELA_REFUSED_MAGIC);
    CHECK(write_magic("TRUA") == ONDRISTELA_REFUSED_MAGIC);
}

static uint64_t write_at_location(uint8_t code, uint64_t host_size)
{
    struct request request = request_m;

    request.code = code;
    request.host_size = host_size;
    request.data_size = 512;
    return write_request(&request);
}

static void test_codes_and_host_sizes(void)
{
    CHECK(write_at_location(4, HOST_SIZE) == ONDRISTELA_REFUSED_CODE);
    CHECK(write_at_location(8, HOST_SIZE) == ONDRISTELA_REFUSED_CODE);
    CHECK(write_at_location(255, HOST_SIZE) == ONDRISTELA_REFUSED_CODE);
    CHECK(write_at_location(0, 262144) == ONDRISTELA_REFUSED_HOST_SIZE);
    CHECK(write_at_location(0, 262656) == ONDRISTELA_ACCEPTED);
    CHECK(write_at_location(0, 262657) == ONDRISTELA_REFUSED_HOST_SIZE);
    CHECK(write_at_location(0, 262656 + 256) == ONDRISTELA_REFUSED_HOST_SIZE);
    CHECK(write_at_location(0, UINT64_C(1) << 50) == ONDRISTELA_ACCEPTED);
    CHECK(write_at_location(0, (UINT64_C(1) << 50) + 512) == ONDRISTELA_REFUSED_HOST_SIZE);
    CHECK(write_at_location(0, UINT64_MAX) == ONDRISTELA_REFUSED_HOST_SIZE);
}

static uint64_t write_version(const char *magic, uint16_t version)
{
    struct request request = request_m;

    request.magic = magic;
    request.version = version;
    return write_request(&request);
}

static void test_versions(void)
{
    CHECK(write_version("VERA", 1) == ONDRISTELA_REFUSED_VERSION);
    CHECK(write_version("VERA", 2) == ONDRISTELA_ACCEPTED);
    CHECK(write_version("VERA", 5) == ONDRISTELA_ACCEPTED);
    CHECK(write_version("VERA", 6) == ONDRISTELA_REFUSED_VERSION);
    CHECK(write_version("TRUE", 3) == ONDRISTELA_REFUSED_VERSION);
    CHECK(write_version("TRUE", 4) == ONDRISTELA_ACCEPTED);
    CHECK(write_version("TRUE", 5) == ONDRISTELA_ACCEPTED);
    CHECK(write_version("TRUE", 6) == ONDRISTELA_REFUSED_VERSION);
    CHECK(write_version("TRUE", 0x0104) == ONDRISTELA_REFUSED_VERSION);
    CHECK(write_version("VERA", UINT16_MAX) == ONDRISTELA_REFUSED_VERSION);
}

static uint64_t write_area(uint8_t code, uint64_t data_start, uint64_t data_size)
{
    struct request request = request_m;

    request.code = code;
    request.data_start = data_start;
    request.data_size = data_size;
    return write_request(&request);
}

static void test_data_areas(void)
{
    CHECK(write_area(0, 131072, 0) == ONDRISTELA_REFUSED_DATA_AREA);
    CHECK(write_area(0, 131072, 513) == ONDRISTELA_REFUSED_DATA_AREA);
    CHECK(write_area(0, 131072, 786944) == ONDRISTELA_REFUSED_DATA_AREA);
    CHECK(write_area(0, 131072 + 512, 512) == ONDRISTELA_REFUSED_DATA_AREA);
    CHECK(write_area(0, 131072, UINT64_MAX - 511) == ONDRISTELA_REFUSED_DATA_AREA);
    CHECK(write_area(1, 655360, 0) == ONDRISTELA_REFUSED_DATA_AREA);
    CHECK(write_area(1, 131072 - 512, 512) == ONDRISTELA_REFUSED_DATA_AREA);
    CHECK(write_area(1, 131072, 512) == ONDRISTELA_ACCEPTED);
    CHECK(write_area(1, 655361, 512) == ONDRISTELA_REFUSED_DATA_AREA);
    CHECK(write_area(1, 917504 - 512, 512) == ONDRISTELA_ACCEPTED);
    CHECK(write_area(1, 917504, 512) == ONDRISTELA_REFUSED_DATA_AREA);
    CHECK(write_area(1, UINT64_MAX - 511, 1024) == ONDRISTELA_REFUSED_DATA_AREA);
}

/* Each two rules that follow one another, broken at once. */
static void test_pairs(void)
{
    struct request request = request_m;

    request.keys_size = 255;
    request.magic = "Vera";
    CHECK(write_request(&request) == ONDRISTELA_REFUSED_LENGTHS);
    request.keys_size = 256;
    request.code = 4;
    CHECK(write_request(&request) == ONDRISTELA_REFUSED_MAGIC);
    request.magic = "TRUE";
    request.host_size = HOST_SIZE + 1;
    CHECK(write_request(&request) == ONDRISTELA_REFUSED_CODE);
    request.code = 0;
    request.version = 6;
    CHECK(write_request(&request) == ONDRISTELA_REFUSED_HOST_SIZE);
    request.host_size = HOST_SIZE;
    request.sector_size = 513;
    CHECK(write_request(&request) == ONDRISTELA_REFUSED_VERSION);
    request.version = 5;
    request.data_size = 0;
    CHECK(write_request(&request) == ONDRISTELA_REFUSED_SECTOR_SIZE);
    request.sector_size = 4096;
    CHECK(write_request(&request) == ONDRISTELA_REFUSED_DATA_AREA);
}

/* Every rule broken, and then one rule fewer each time. */
static void test_order_of_checks(void)
{
    struct request request = {"Vera", 6, 7, 4, 1, 0, 0, 0, 63, 255, 511};

    CHECK(write_request(&request) == ONDRISTELA_REFUSED_LENGTHS);
    request.salt_size = 64;
    request.keys_size = 256;
    request.header_size = 512;
    CHECK(write_request(&request) == ONDRISTELA_REFUSED_MAGIC);
    request.magic = "VERA";
    CHECK(write_request(&request) == ONDRISTELA_REFUSED_CODE);
    request.code = 0;
    CHECK(write_request(&request) == ONDRISTELA_REFUSED_HOST_SIZE);
    request.host_size = HOST_SIZE;
    CHECK(write_request(&request) == ONDRISTELA_REFUSED_VERSION);
    request.version = 5;
    CHECK(write_request(&request) == ONDRISTELA_REFUSED_SECTOR_SIZE);
    request.sector_size = 512;
    CHECK(write_request(&request) == ONDRISTELA_REFUSED_DATA_AREA);
    request.data_start = 131072;
    request.data_size = 512;
    CHECK(write_request(&request) == ONDRISTELA_ACCEPTED);
}

void test_writing_rules(void)
{
    test_lengths();
    test_magics();
    test_codes_and_host_sizes();
    test_versions();
    test_data_areas();
    test_pairs();
    test_order_of_checks();
}
