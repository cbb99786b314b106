/* The C boundary: the worked cases of docs/RULES.md, and each refusal with what it leaves. Valid as C11 and as
 * C++11; tests/boundary.sh compiles and runs it as both. Exits 1 where a check fails. */
#include "check.h"
#include "image.h"
#include "tests.h"

int main(void)
{
    fill_image();
    test_constants();
    test_refusal_text();
    test_locations();
    test_sector_map();
    test_opening();
    test_header_rules();
    test_header_writing();
    test_writing_rules();
    test_search();
    test_views();
    test_sector_sizes();
    test_access();
    test_refused_sectors();
    test_unaligned();
    test_made_up();
    test_ciphers();
    test_plaintext();
    test_example();
    return report_checks();
}
