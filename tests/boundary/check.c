/* How a check is counted, and how memory is found changed that a call should have left as it was. */
#include "check.h"

#include <stdio.h>
#include <string.h>

static int checks, failures;

void check(int holds, const char *condition, const char *file, int line)
{
    checks++;
    if (!holds) {
        failures++;
        fprintf(stderr, "%s:%d: fails: %s\n", file, line, condition);
    }
}

int report_checks(void)
{
    if (failures > 0) {
        printf("boundary: %d of %d checks failed\n", failures, checks);
        return 1;
    }
    printf("boundary: %d checks passed\n", checks);
    return 0;
}

void fill(void *memory, size_t size)
{
    memset(memory, 0xA5, size);
}

int is_filled(const void *memory, size_t size)
{
    uint8_t pattern[1024]; /* as large as the largest struct or buffer that is asked about, or larger */

    fill(pattern, sizeof pattern);
    return size <= sizeof pattern && memcmp(memory, pattern, size) == 0;
}
