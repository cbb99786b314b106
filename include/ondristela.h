/* Ondristela: where VeraCrypt and TrueCrypt volumes lie in their host, with reads and writes that stay there.
 *
 * A volume's layout comes from its deciphered header, checked against the size of the host, the disk or file
 * that holds it. Sectors are read from and written to an image of the whole host, as they are there,
 * enciphered, or as plaintext, with AES-256 in XTS on the way; a protected view refuses every write that would
 * touch a hidden volume. Every function of the library is proved to end and to meet its contract for all
 * arguments, made-up layouts and views included.
 *
 * Sectors. A sector is always 512 bytes here, and first sectors, counts, buffers and tweaks go by it on every
 * disk. The disk's own sectors may be larger, as a layout's `sector_size` tells; then the extent of a read or write,
 * its first sector and its count, must be whole ones of the disk's.
 *
 * Keys. A key is 64 bytes: a first half for the data, a second half for the tweak. Of a volume that is enciphered
 * with AES alone it is the first 64 of the header's key bytes, which ondristela_keys finds. Other ciphers, and AES
 * together with others, are not done here. The comment at ondristela_encipher tells who may learn of a key by timing.
 *
 * Answers. ondristela_encipher and ondristela_decipher return nothing, and ondristela_crc32 a checksum. Every
 * other function returns ONDRISTELA_ACCEPTED, which is 0, or one refusal, ONDRISTELA_REFUSED_..: of those that
 * apply, the first in the order that the function's comment gives. A refusal leaves all memory as it was, with
 * two exceptions. ONDRISTELA_REFUSED_PROTECTED sets the view's `locked`. Where a function takes `sector`,
 * ONDRISTELA_REFUSED_OUTSIDE and ONDRISTELA_REFUSED_PROTECTED set *sector to the first user sector that was in
 * the way. ondristela_refusal_text, which this header defines, gives the sentence for an answer.
 *
 * What the caller owes, and the proof cannot check:
 * - No pointer is null. Each is aligned for its type, and valid for it or for the length that follows. With a
 *   length of 0 any pointer that is not null will do.
 * - Memory passed for writing, by a pointer that is not to const, overlaps no other argument's.
 * - No length is above 2^63 - 1.
 * - During a call no other thread writes memory that was passed to it, or reads what was passed for writing.
 *   The library has no state of its own.
 *
 * Example. Writes sectors of an outer volume and never harms the hidden one; returns NULL, or why nothing was
 * written. *sector is then the first sector that was in the way, if one was. Each header is 512 deciphered bytes.
 *
 *     static const char *write_outer_sectors(uint8_t *image, size_t image_size, const uint8_t *outer_header,
 *                                            const uint8_t *hidden_header, uint64_t first, uint64_t count,
 *                                            const uint8_t *bytes, uint64_t *sector)
 *     {
 *         const uint8_t outer_code = ONDRISTELA_LOCATION_STANDARD;
 *         const uint8_t hidden_code = ONDRISTELA_LOCATION_HIDDEN;
 *         struct ondristela_layout outer, hidden;
 *         struct ondristela_view view;
 *
 *         if (ondristela_open(outer_header, ONDRISTELA_HEADER_SIZE, &outer_code, 1, image_size, &outer)
 *             != ONDRISTELA_ACCEPTED)
 *             return "the outer volume does not open";
 *         if (ondristela_open(hidden_header, ONDRISTELA_HEADER_SIZE, &hidden_code, 1, image_size, &hidden)
 *             != ONDRISTELA_ACCEPTED)
 *             return "the hidden volume does not open";
 *         if (ondristela_view_protected(&outer, &hidden, &view) != ONDRISTELA_ACCEPTED)
 *             return "the hidden volume does not lie in the outer one";
 *         if (count > ONDRISTELA_MAX_COUNT)
 *             return "so many sectors take several calls";
 *         switch (ondristela_write(&view, image, image_size, first, count, bytes,
 *                                  count * ONDRISTELA_SECTOR_SIZE, sector)) {
 *         case ONDRISTELA_ACCEPTED:
 *             return NULL;
 *         case ONDRISTELA_REFUSED_PROTECTED:
 *             return "that sector is the hidden volume's; the view takes no more writes";
 *         case ONDRISTELA_REFUSED_UNALIGNED:
 *             return "the disk has larger sectors, and only whole ones can be written";
 *         default:
 *             return "the outer volume has no such sector";
 *         }
 *     }
 *
 * Linking. `make library` proves the library and writes target/staticlib/libondristela.a, for x86-64 Linux.
 * It needs only the C library, and no flag of its own; this header needs C99 or C++11:
 *
 *   gcc recorder.c -Iinclude -Ltarget/staticlib -londristela
 *
 * or, once `make install` has put it with this header where pkg-config finds both:
 *
 *   gcc recorder.c $(pkg-config --cflags --libs ondristela)
 */
#ifndef ONDRISTELA_H
#define ONDRISTELA_H

#include <stddef.h>
#include <stdint.h>

#ifdef __cplusplus
extern "C" {
#endif

/* The version of this header and of the library that is installed with it. */

/* version: written by tools/version.py from rust/Cargo.toml */
#define ONDRISTELA_VERSION "0.1.5"
/* end of version */

/* The answer of a call that is accepted. */
#define ONDRISTELA_ACCEPTED 0

/* The refusals, each with exactly when it is given. 5 to 10 tell of the first candidate that is a header, where
 * none is accepted. docs/RULES.md states the rules that the library is proved to keep. */

/* refusals: written by tools/refusals.py from refusals.txt */

/* The candidates are not 1 to 64 headers of 512 bytes, with one location code for each; for a header to be
 * written, the salt is not 64 bytes long, the keys are not 256, or the header is not 512. */
#define ONDRISTELA_REFUSED_LENGTHS 1

/* A location code is above 3; the codes are 0 standard, 1 hidden, 2 standard backup, 3 hidden backup. */
#define ONDRISTELA_REFUSED_CODE 2

/* The host_size is below 262,656, above 2^50, or no multiple of 512. */
#define ONDRISTELA_REFUSED_HOST_SIZE 3

/* No candidate is a header: each has a magic other than VERA and TRUE, or a wrong checksum, as after
 * deciphering with a wrong password or cipher. */
#define ONDRISTELA_REFUSED_NO_HEADER 4

/* The header's version is not supported; for VERA it must be 2 to 5, for TRUE 4 or 5. */
#define ONDRISTELA_REFUSED_VERSION 5

/* A reserved flag of the header (bits 2 to 31) is set, or in a VERA header a reserved byte (76 to 91, 132
 * to 251) is not zero. */
#define ONDRISTELA_REFUSED_RESERVED 6

/* Flag bit 0 or 1 of the header is set, which tells of a system volume or one encrypted in place; neither
 * is supported. */
#define ONDRISTELA_REFUSED_FLAGS 7

/* The sector_size, in the header or for one to be written, is none of 512, 1,024, 2,048 and 4,096. */
#define ONDRISTELA_REFUSED_SECTOR_SIZE 8

/* The header's hidden_size does not fit its location code; it must be 0 for a standard volume, and for a
 * hidden one equal to data_size and not 0. */
#define ONDRISTELA_REFUSED_HIDDEN_SIZE 9

/* The header's data area does not fit the host; host_size, data_start and data_size must be multiples of
 * sector_size, data_size must equal encrypted_size and not be 0, and the data area must start at 131,072
 * (for a hidden volume there or later) and end at least 131,072 bytes before the host's end. */
#define ONDRISTELA_REFUSED_DATA_AREA 10

/* The layout or view is unsound: its host_size is refused 3, its sector_size 8, its kind is neither
 * standard nor hidden, its data area does not fit the host as 10 has it, or its protected range is empty,
 * not of whole 512-byte sectors, outside the data area or in a hidden volume; use one that an accepted
 * call gave. */
#define ONDRISTELA_REFUSED_UNSOUND 11

/* The layouts do not nest; the first must be standard and the second hidden, with the same host_size and
 * sector_size and its data area inside the first's. */
#define ONDRISTELA_REFUSED_NOT_NESTED 12

/* The image is not host_size bytes long; pass the whole host. */
#define ONDRISTELA_REFUSED_IMAGE_SIZE 13

/* The count is above 128; split the extent over several calls. */
#define ONDRISTELA_REFUSED_COUNT 14

/* The buffer is not 512 bytes long for each sector of the count. */
#define ONDRISTELA_REFUSED_BUFFER_SIZE 15

/* First and count add up to more sectors than the volume has; in the map, the user sector is not below
 * that number, or the host sector lies outside the data area. The sector in the way is told: the first
 * user sector past the volume's end, or first itself if that is later; the map tells none. */
#define ONDRISTELA_REFUSED_OUTSIDE 16

/* The view's write lock is closed, as refusal 18 leaves it; nothing was written, and reads still work. */
#define ONDRISTELA_REFUSED_LOCKED 17

/* A sector of the write lies in the protected range, which holds the hidden volume; nothing was written,
 * and the view now refuses every write. The sector in the way is told: the first user sector of the
 * protected range, or first itself if that is later. */
#define ONDRISTELA_REFUSED_PROTECTED 18

/* The magic of the header to be written is neither VERA nor TRUE. */
#define ONDRISTELA_REFUSED_MAGIC 19

/* First or count is no multiple of sector_size / 512, how many sectors of 512 bytes make one of the disk's
 * own; widen the extent to whole ones. */
#define ONDRISTELA_REFUSED_UNALIGNED 20

/* end of refusals */

/* Bytes of a sector, whatever the disk's own have, of a header, and of the salt and the keys in a header. */
#define ONDRISTELA_SECTOR_SIZE 512
#define ONDRISTELA_HEADER_SIZE 512
#define ONDRISTELA_SALT_SIZE 64
#define ONDRISTELA_KEYS_SIZE 256

/* Bytes of the key that sectors are enciphered with: 32 for the data, then 32 for the tweak. */
#define ONDRISTELA_KEY_SIZE 64

/* The most candidates in one opening, and the most sectors in one read or write. */
#define ONDRISTELA_MAX_CANDIDATES 64
#define ONDRISTELA_MAX_COUNT 128

/* Location codes: where in the host a header lies. */
#define ONDRISTELA_LOCATION_STANDARD 0        /* at 0 */
#define ONDRISTELA_LOCATION_HIDDEN 1          /* at 65,536 */
#define ONDRISTELA_LOCATION_STANDARD_BACKUP 2 /* at host_size - 131,072 */
#define ONDRISTELA_LOCATION_HIDDEN_BACKUP 3   /* at host_size - 65,536 */

/* Kinds of a volume. */
#define ONDRISTELA_KIND_STANDARD 0
#define ONDRISTELA_KIND_HIDDEN 1

/* Magics of a header: VeraCrypt's and TrueCrypt's. */
#define ONDRISTELA_MAGIC_VERA 0
#define ONDRISTELA_MAGIC_TRUE 1

/* Where a volume lies in its host, and what its header tells. It is sound where host_size keeps the rule of
 * refusal 3 and sector_size that of refusal 8, kind is one of the two, and host_size, data_start and data_size
 * keep the rules of refusal 10; the other numbers do not matter. A caller may make one up: a call that takes an
 * unsound one refuses 11. */
struct ondristela_layout {
    uint64_t host_size;           /* bytes of the host */
    uint64_t kind;                /* ONDRISTELA_KIND_.. */
    uint64_t magic;               /* ONDRISTELA_MAGIC_.. */
    uint64_t version;             /* of the header */
    uint64_t min_program_version; /* the least version of the program that may open the volume; 0x0700 is 7.0 */
    uint64_t data_start;          /* the data area's first byte in the host */
    uint64_t data_size;           /* bytes of the data area */
    uint64_t candidate;           /* the index of the candidate that was accepted */
    uint64_t sector_size;         /* bytes of the disk's own sectors: 512, 1,024, 2,048 or 4,096 */
};

/* A volume to read and write. It is sound where its layout is and its protected range, if it has one, is not
 * empty and lies on 512-byte boundaries, whatever sector_size is, inside the data area of a standard volume. */
struct ondristela_view {
    struct ondristela_layout layout;
    uint64_t protected_range; /* 0: there is none, and the next two do not matter; else there is one */
    uint64_t protected_first; /* its first byte in the host */
    uint64_t protected_end;   /* the byte past its end */
    uint64_t locked;          /* the write lock: 0 open, else closed */
};

/* A part of the candidates. */
struct ondristela_range {
    uint64_t offset;
    uint64_t size;
};

#if defined(__cplusplus)
static_assert(sizeof(struct ondristela_layout) == 72, "a layout is nine numbers");
static_assert(sizeof(struct ondristela_view) == 104, "a view is thirteen numbers");
static_assert(sizeof(struct ondristela_range) == 16, "a range is two numbers");
#elif __STDC_VERSION__ >= 201112L
_Static_assert(sizeof(struct ondristela_layout) == 72, "a layout is nine numbers");
_Static_assert(sizeof(struct ondristela_view) == 104, "a view is thirteen numbers");
_Static_assert(sizeof(struct ondristela_range) == 16, "a range is two numbers");
#endif

/* Stores the offset of a location code's header in a host of this size.
 * Refusals: 2, 3. They leave *offset as it was. */
uint64_t ondristela_location(uint8_t code, uint64_t host_size, uint64_t *offset);

/* Opens a volume: stores the layout of the first candidate that is accepted. `candidates` holds 1 to 64
 * deciphered headers of 512 bytes, one after the other, and `codes` the location code of each.
 * Refusals: 1, 2, 3, before any candidate is looked at; 4 where none is a header; else, where none is
 * accepted, that of 5 to 10 whose rule the first header breaks first. They leave *layout as it was. */
uint64_t ondristela_open(const uint8_t *candidates, size_t candidates_size, const uint8_t *codes,
                         size_t codes_size, uint64_t host_size, struct ondristela_layout *layout);

/* Stores where in `candidates` the 256 key bytes lie of the candidate that ondristela_open accepts.
 * Refusals: as for ondristela_open. They leave *range as it was. */
uint64_t ondristela_keys(const uint8_t *candidates, size_t candidates_size, const uint8_t *codes,
                         size_t codes_size, uint64_t host_size, struct ondristela_range *range);

/* Writes the deciphered header of a volume over `header`, 512 bytes: both checksums are made, and what no field
 * takes is zero. `magic` is the four letters VERA or TRUE; `sector_size` is that of the disk's own sectors; `salt`
 * is 64 bytes and `keys` 256. The code makes the volume standard or hidden. ondristela_open accepts what is written,
 * for the same code and host size, with the same magic, versions, data_start, data_size and sector_size.
 * Refusals: 1, 19, 2, 3, 5, 8, 10, tested in this order. They leave the header as it was. */
uint64_t ondristela_write_header(const uint8_t magic[4], uint16_t version, uint16_t min_program_version,
                                 uint8_t code, uint64_t host_size, uint64_t data_start, uint64_t data_size,
                                 uint64_t sector_size, const uint8_t *salt, size_t salt_size,
                                 const uint8_t *keys, size_t keys_size, uint8_t *header,
                                 size_t header_size);

/* Stores the host sector that holds a user sector: one of the volume, counted from 0. Host sectors are
 * counted from the host's first byte, whatever the volume's kind. The number is also the user sector's tweak
 * number. Both count sectors of 512 bytes, whatever sector_size is.
 * Refusals: 11, 16. They leave *host as it was. */
uint64_t ondristela_host_sector(const struct ondristela_layout *layout, uint64_t user, uint64_t *host);

/* Stores the user sector that a host sector holds: the inverse of ondristela_host_sector.
 * Refusals: 11, 16. They leave *user as it was. */
uint64_t ondristela_user_sector(const struct ondristela_layout *layout, uint64_t host, uint64_t *user);

/* Stores a user sector's tweak block: the 8 bytes of its tweak number, the least significant first, then 8 zeros.
 * Refusals: 11, 16. They leave the block as it was. */
uint64_t ondristela_tweak(const struct ondristela_layout *layout, uint64_t user, uint8_t block[16]);

/* Stores a view of a volume alone: no protected range, the write lock open.
 * Refusals: 11. It leaves *view as it was. */
uint64_t ondristela_view_plain(const struct ondristela_layout *layout, struct ondristela_view *view);

/* Stores a view of an outer volume that protects the data area of a hidden one, the write lock open. Both layouts
 * must have the same host_size and the same sector_size.
 * Refusals: 11, 12. They leave *view as it was. */
uint64_t ondristela_view_protected(const struct ondristela_layout *outer,
                                   const struct ondristela_layout *hidden, struct ondristela_view *view);

/* Fills the buffer with `count` sectors of the image, from user sector `first` on. The image is the whole
 * host, the buffer 512 bytes for each sector. Neither the protected range nor the write lock hinders a read.
 * `first` and `count` must be multiples of sector_size / 512, `first` also with a count of 0, or the answer is 20.
 * Refusals: 11, 13, 14, 15, 20, 16, tested in this order. They leave the buffer as it was.
 * 16 sets *sector to the first user sector of the extent that is past the volume's end: the larger of `first` and
 * data_size / 512, which for a count of 0 is `first`. Every other answer leaves *sector as it was. */
uint64_t ondristela_read(const struct ondristela_view *view, const uint8_t *image, size_t image_size,
                         uint64_t first, uint64_t count, uint8_t *buffer, size_t buffer_size,
                         uint64_t *sector);

/* Copies the buffer into `count` sectors of the image, from user sector `first` on, and changes nothing else.
 * Image, buffer and extent are as for ondristela_read.
 * Refusals: 11, 13, 14, 15, 20, 16, 17, 18, tested in this order. They leave the image as it was, and the view
 * too, except that 18 sets its `locked` to 1: every later write is refused. A count of 0 is never refused 18.
 * 16 sets *sector as for ondristela_read, and 18 to the first user sector of the extent that is protected: the
 * larger of `first` and (protected_first - data_start) / 512. Every other answer leaves *sector as it was. */
uint64_t ondristela_write(struct ondristela_view *view, uint8_t *image, size_t image_size, uint64_t first,
                          uint64_t count, const uint8_t *buffer, size_t buffer_size, uint64_t *sector);

/* For a caller that moves the bytes itself, with pread and pwrite or on a disk too large to map. Stores where in
 * the host the `count` sectors from user sector `first` on begin, for an image and a buffer of these sizes: the
 * `buffer_size` bytes from *offset on, which lie inside the host, are what ondristela_read would give.
 * Refusals: those of ondristela_read with such sizes. They leave *offset as it was. *sector is set and left as
 * by ondristela_read. */
uint64_t ondristela_read_extent(const struct ondristela_view *view, uint64_t image_size, uint64_t first,
                                uint64_t count, uint64_t buffer_size, uint64_t *offset, uint64_t *sector);

/* The same for a write: the buffer's bytes stored from *offset on are what ondristela_write would leave.
 * Refusals: those of ondristela_write with such sizes. They leave *offset as it was, and the view too, except
 * that 18 sets its `locked` to 1. *sector is set and left as by ondristela_write. */
uint64_t ondristela_write_extent(struct ondristela_view *view, uint64_t image_size, uint64_t first,
                                 uint64_t count, uint64_t buffer_size, uint64_t *offset, uint64_t *sector);

/* Enciphers a unit in place: 512 bytes, with AES-256 (FIPS 197) in XTS (IEEE 1619). The first 32 bytes of the key
 * are the data's, the next 32 the tweak's; keys with two equal halves are taken too. The unit is a sector, and its
 * tweak number the host sector, as ondristela_host_sector stores it; any number is taken. Nothing is refused.
 *
 * Timing. This call and the three below look bytes up in tables, at places that depend on the key and the data.
 * They are not constant-time: whoever runs programs on the same machine at the time, or shares its processor's
 * caches, may learn something of the keys by timing. Run them on a machine that nobody else uses. Nothing is
 * learnt in this way from the disk alone. */
void ondristela_encipher(const uint8_t key[64], uint64_t tweak_number, uint8_t unit[512]);

/* Deciphers a unit in place. With one key and one tweak number this and ondristela_encipher undo each other. */
void ondristela_decipher(const uint8_t key[64], uint64_t tweak_number, uint8_t unit[512]);

/* A read of plaintext: as ondristela_read, and each sector in the buffer is deciphered, with its host sector as the
 * tweak number. The image is left as it is. No key is refused: what a wrong one gives looks random.
 * Refusals: those of ondristela_read, in its order. They leave the buffer as it was. *sector is set and left as by
 * ondristela_read. */
uint64_t ondristela_read_plaintext(const struct ondristela_view *view, const uint8_t key[64],
                                   const uint8_t *image, size_t image_size, uint64_t first, uint64_t count,
                                   uint8_t *buffer, size_t buffer_size, uint64_t *sector);

/* A write of plaintext: as ondristela_write, and each sector is stored enciphered, with its host sector as the tweak
 * number. The buffer is left as it is.
 * Refusals: those of ondristela_write, in its order. They leave the image as it was, and the view too, except that
 * 18 sets its `locked` to 1. *sector is set and left as by ondristela_write. */
uint64_t ondristela_write_plaintext(struct ondristela_view *view, const uint8_t key[64], uint8_t *image,
                                    size_t image_size, uint64_t first, uint64_t count, const uint8_t *buffer,
                                    size_t buffer_size, uint64_t *sector);

/* CRC-32 of ITU-T V.42, the checksum in headers: 0xCBF43926 for the nine bytes "123456789". */
uint32_t ondristela_crc32(const uint8_t *bytes, size_t bytes_size);

/* What an answer says, for a person who meets it: "accepted", or when the refusal is given and what can be done.
 * A number that no function returns has a sentence too. The text is constant, begins with a small letter and ends
 * without a full stop, so that a program can set it into a message of its own. This function is no part of the
 * library: nothing is proved of it. */
static inline const char *ondristela_refusal_text(uint64_t number)
{
    switch (number) {
    case ONDRISTELA_ACCEPTED:
        return "accepted";

    /* sentences: written by tools/refusals.py from refusals.txt */
    case ONDRISTELA_REFUSED_LENGTHS:
        return "the candidates are not 1 to 64 headers of 512 bytes, with one location code for each; for "
               "a header to be written, the salt is not 64 bytes long, the keys are not 256, or the header "
               "is not 512";
    case ONDRISTELA_REFUSED_CODE:
        return "a location code is above 3; the codes are 0 standard, 1 hidden, 2 standard backup, 3 "
               "hidden backup";
    case ONDRISTELA_REFUSED_HOST_SIZE:
        return "the host_size is below 262,656, above 2^50, or no multiple of 512";
    case ONDRISTELA_REFUSED_NO_HEADER:
        return "no candidate is a header: each has a magic other than VERA and TRUE, or a wrong checksum, "
               "as after deciphering with a wrong password or cipher";
    case ONDRISTELA_REFUSED_VERSION:
        return "the header's version is not supported; for VERA it must be 2 to 5, for TRUE 4 or 5";
    case ONDRISTELA_REFUSED_RESERVED:
        return "a reserved flag of the header (bits 2 to 31) is set, or in a VERA header a reserved byte "
               "(76 to 91, 132 to 251) is not zero";
    case ONDRISTELA_REFUSED_FLAGS:
        return "flag bit 0 or 1 of the header is set, which tells of a system volume or one encrypted in "
               "place; neither is supported";
    case ONDRISTELA_REFUSED_SECTOR_SIZE:
        return "the sector_size, in the header or for one to be written, is none of 512, 1,024, 2,048 and "
               "4,096";
    case ONDRISTELA_REFUSED_HIDDEN_SIZE:
        return "the header's hidden_size does not fit its location code; it must be 0 for a standard "
               "volume, and for a hidden one equal to data_size and not 0";
    case ONDRISTELA_REFUSED_DATA_AREA:
        return "the header's data area does not fit the host; host_size, data_start and data_size must be "
               "multiples of sector_size, data_size must equal encrypted_size and not be 0, and the data "
               "area must start at 131,072 (for a hidden volume there or later) and end at least 131,072 "
               "bytes before the host's end";
    case ONDRISTELA_REFUSED_UNSOUND:
        return "the layout or view is unsound: its host_size is refused 3, its sector_size 8, its kind is "
               "neither standard nor hidden, its data area does not fit the host as 10 has it, or its "
               "protected range is empty, not of whole 512-byte sectors, outside the data area or in a "
               "hidden volume; use one that an accepted call gave";
    case ONDRISTELA_REFUSED_NOT_NESTED:
        return "the layouts do not nest; the first must be standard and the second hidden, with the same "
               "host_size and sector_size and its data area inside the first's";
    case ONDRISTELA_REFUSED_IMAGE_SIZE:
        return "the image is not host_size bytes long; pass the whole host";
    case ONDRISTELA_REFUSED_COUNT:
        return "the count is above 128; split the extent over several calls";
    case ONDRISTELA_REFUSED_BUFFER_SIZE:
        return "the buffer is not 512 bytes long for each sector of the count";
    case ONDRISTELA_REFUSED_OUTSIDE:
        return "first and count add up to more sectors than the volume has; in the map, the user sector is "
               "not below that number, or the host sector lies outside the data area";
    case ONDRISTELA_REFUSED_LOCKED:
        return "the view's write lock is closed, as refusal 18 leaves it; nothing was written, and reads "
               "still work";
    case ONDRISTELA_REFUSED_PROTECTED:
        return "a sector of the write lies in the protected range, which holds the hidden volume; nothing "
               "was written, and the view now refuses every write";
    case ONDRISTELA_REFUSED_MAGIC:
        return "the magic of the header to be written is neither VERA nor TRUE";
    case ONDRISTELA_REFUSED_UNALIGNED:
        return "first or count is no multiple of sector_size / 512, how many sectors of 512 bytes make one "
               "of the disk's own; widen the extent to whole ones";
    /* end of sentences */

    default:
        return "the number is no answer of this library";
    }
}

#ifdef __cplusplus
}
#endif

#endif
