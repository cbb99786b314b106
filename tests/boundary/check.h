/* How a check is counted, and how memory is found changed that a call should have left as it was. */
#ifndef CHECK_H
#define CHECK_H

#include <stddef.h>
#include <stdint.h>

#define CHECK(condition) check((condition), #condition, __FILE__, __LINE__)

void check(int holds, const char *condition, const char *file, int line);

/* Prints how many checks passed or failed. Returns the program's exit status. */
int report_checks(void);

/* Memory that a call may store to is filled with a pattern beforehand; a refusal must leave it. */
void fill(void *memory, size_t size);
int is_filled(const void *memory, size_t size);

/* What a helper answers if its call left memory otherwise than it should have. */
#define CHANGED UINT64_MAX

#endif
