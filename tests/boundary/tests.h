/* The tests, each in the file of its name. */
#ifndef TESTS_H
#define TESTS_H

void test_constants(void);
void test_refusal_text(void);
void test_locations(void);
void test_sector_map(void);
void test_opening(void);
void test_header_rules(void);
void test_header_writing(void);
void test_writing_rules(void);
void test_search(void);
void test_views(void);
void test_sector_sizes(void);
void test_access(void);
void test_refused_sectors(void);
void test_unaligned(void);
void test_made_up(void);
void test_ciphers(void);
void test_plaintext(void);
void test_example(void);

#endif
