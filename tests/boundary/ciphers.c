/* AES-256 in XTS on single units: the published ones, there and back in either order, and keys of two equal halves. */
#include <string.h>

#include "check.h"
#include "ondristela.h"
#include "published.h"
#include "tests.h"

static size_t value(char digit)
{
    static const char digits[17] = "0123456789abcdef";
    size_t number = 0;

    while (number < 15 && digits[number] != digit)
        number++;
    return number;
}

/* Stores so many bytes, told by hexadecimal digits. */
static void store_digits(uint8_t *bytes, size_t size, const char *digits)
{
    size_t index;

    for (index = 0; index < size; index++)
        bytes[index] = (16 * value(digits[2 * index]) + value(digits[2 * index + 1])) & 0xFF;
}

/* Every byte in its order, twice: the plaintext of the published units. */
static void store_unit(uint8_t *unit)
{
    size_t index;

    for (index = 0; index < ONDRISTELA_SECTOR_SIZE; index++)
        unit[index] = index & 0xFF;
}

static void test_published(void)
{
    uint8_t key[ONDRISTELA_KEY_SIZE], unit[ONDRISTELA_SECTOR_SIZE], expected[ONDRISTELA_SECTOR_SIZE];
    uint8_t plaintext[ONDRISTELA_SECTOR_SIZE];
    size_t index;

    store_digits(key, sizeof key, published_key);
    store_unit(plaintext);
    for (index = 0; index < PUBLISHED_UNITS; index++) {
        const struct published_unit *published = &published_units[index];

        store_digits(expected, sizeof expected, published->enciphered);
        store_unit(unit);
        ondristela_encipher(key, published->tweak_number, unit);
        CHECK(memcmp(unit, expected, sizeof unit) == 0);
        ondristela_decipher(key, published->tweak_number, unit);
        CHECK(memcmp(unit, plaintext, sizeof unit) == 0);
    }
}

/* Whether the two calls undo each other in either order, and each changes the unit. */
static int undoes(const uint8_t *key, uint64_t tweak_number)
{
    uint8_t unit[ONDRISTELA_SECTOR_SIZE], plaintext[ONDRISTELA_SECTOR_SIZE];
    int changes;

    store_unit(unit);
    store_unit(plaintext);
    ondristela_encipher(key, tweak_number, unit);
    changes = memcmp(unit, plaintext, sizeof unit) != 0;
    ondristela_decipher(key, tweak_number, unit);
    if (!changes || memcmp(unit, plaintext, sizeof unit) != 0)
        return 0;
    ondristela_decipher(key, tweak_number, unit);
    changes = memcmp(unit, plaintext, sizeof unit) != 0;
    ondristela_encipher(key, tweak_number, unit);
    return changes && memcmp(unit, plaintext, sizeof unit) == 0;
}

static void test_round_trips(void)
{
    static const uint64_t numbers[8] = {0, 1, 256, UINT32_MAX, UINT64_C(1) << 32, UINT64_C(1) << 63,
                                        UINT64_MAX - 1, UINT64_MAX};
    uint8_t key[ONDRISTELA_KEY_SIZE], equal[ONDRISTELA_KEY_SIZE];
    size_t index;

    store_digits(key, sizeof key, published_key);
    memcpy(equal, key, 32);
    memcpy(equal + 32, key, 32);
    for (index = 0; index < 8; index++) {
        CHECK(undoes(key, numbers[index]));
        CHECK(undoes(equal, numbers[index]));
    }
}

/* Whether a unit of zeros with a key of zeros is enciphered to this first and this last block. */
static int ends_are(uint64_t tweak_number, const char *first, const char *last)
{
    uint8_t key[ONDRISTELA_KEY_SIZE], unit[ONDRISTELA_SECTOR_SIZE], blocks[32];

    memset(key, 0, sizeof key);
    memset(unit, 0, sizeof unit);
    store_digits(blocks, 16, first);
    store_digits(blocks + 16, 16, last);
    ondristela_encipher(key, tweak_number, unit);
    return memcmp(unit, blocks, 16) == 0 && memcmp(unit + sizeof unit - 16, blocks + 16, 16) == 0;
}

/* The blocks are those that Nettle gives, which takes such keys. */
static void test_equal_halves(void)
{
    CHECK(ends_are(0, "d456b4fc2e620bba6ffbed27b956c954", "f228f2a0c961f725fc2c1c933eca61d5"));
    CHECK(ends_are(UINT64_MAX, "1a7a6e5cffd2352f8e8d7f0f7a9dc952", "e23331c2cd45eabc34a39568530a112c"));
}

/* What lies before and behind a unit is left, at any address, and so is the key. */
static void test_addresses(void)
{
    uint8_t key[ONDRISTELA_KEY_SIZE], same_key[ONDRISTELA_KEY_SIZE], expected[ONDRISTELA_SECTOR_SIZE];
    uint8_t bytes[ONDRISTELA_SECTOR_SIZE + 32];
    size_t start;

    store_digits(key, sizeof key, published_key);
    store_digits(same_key, sizeof same_key, published_key);
    store_digits(expected, sizeof expected, published_units[0].enciphered);
    for (start = 0; start <= 32; start++) {
        uint8_t *unit = bytes + start;

        fill(bytes, sizeof bytes);
        store_unit(unit);
        ondristela_encipher(key, published_units[0].tweak_number, unit);
        CHECK(memcmp(unit, expected, sizeof expected) == 0 && memcmp(key, same_key, sizeof key) == 0);
        CHECK(is_filled(bytes, start) && is_filled(unit + ONDRISTELA_SECTOR_SIZE, 32 - start));
    }
}

void test_ciphers(void)
{
    test_published();
    test_round_trips();
    test_equal_halves();
    test_addresses();
}
