/* Gelruptai for C: the proved walk over PowerPC 750CL code, its jump tables and its report, in libgelruptai.a (x86-64).
 *
 * Link:  (cd crates/gelruptai_c && rt lib) && cp crates/gelruptai_c/out/libgelruptai_c.a libgelruptai.a && cc -Iinclude program.c libgelruptai.a
 *
 * Each function is proved to do what crates/gelruptai/specs says, for every content and every length of what is lent. What the
 * proofs can't see is what a C pointer owes:
 *
 * - A buffer is a pointer and how many elements it has (elements, not bytes; less than 2^63 bytes). The pointer is not null, also where
 *   the length is 0, is aligned for its type, and the elements are there. `x[9]` is a pointer to 9 elements, without a length.
 * - A buffer without `const` is written, and overlaps no other buffer of the same call. `const` buffers may overlap each other.
 * - What a buffer holds before may be anything, but it has been initialised (calloc will do).
 * - Nobody else writes to a lent buffer during a call, nor reads one that is not `const`.
 *
 * Every call ends and returns. There is no heap, no file, no global and no lock: a call keeps nothing, needs no thread, and any number
 * of threads may call at once with their own buffers. It calls memcpy and memset and nothing else. It takes some 20 KiB of stack, as
 * measured, not as proved. Numbers are in the machine's own byte order; docs/FORMATS.md says what the image's words are. */
#ifndef GELRUPTAI_H
#define GELRUPTAI_H

#include <stddef.h>
#include <stdint.h>

#ifdef __cplusplus
extern "C" {
#endif

/* Answers. 0 is done; a function's comment names the others that it can give. */
enum {
    GELRUPTAI_DONE = 0,
    GELRUPTAI_BROKEN_IMAGE = 1,     /* the image breaks a rule: gelruptai_check_image says which */
    GELRUPTAI_NOT_CODE = 2,         /* a start is in no Code section */
    GELRUPTAI_MISALIGNED = 3,       /* a start is no multiple of 4 */
    GELRUPTAI_MAP_TOO_SMALL = 4,    /* the map has fewer bits than there are Code words */
    GELRUPTAI_STACK_FULL = 5,       /* a state had to wait and all slots were held */
    GELRUPTAI_RELOCATION_ERROR = 7, /* a table's word has a relocation that can't be read */
    GELRUPTAI_RAGGED = 8,           /* a table's size, cut to its section, is no multiple of 4 */
    GELRUPTAI_POINTS_NOWHERE = 9,   /* a table's word points to no section */
    GELRUPTAI_NO_ROOM = 10,         /* more entries, or more bytes of a report, than the buffer has */
    GELRUPTAI_NO_REPORT = 13        /* the bytes are no report of this image */
};

/* The first broken rule of an image, as gelruptai_check_image answers it. */
enum {
    GELRUPTAI_SOUND = 0,
    GELRUPTAI_RULE_WORDS = 1,         /* as many words as the head says */
    GELRUPTAI_RULE_COUNTS = 2,        /* 1 to 64 sections, at most 4,096 entries in each further table */
    GELRUPTAI_RULE_KIND = 3,          /* Executable or Relocatable */
    GELRUPTAI_RULE_SECTIONS = 4,      /* a known kind, an end below 2^32, data of its size, none for Bss, Code aligned */
    GELRUPTAI_RULE_ELF_NUMBERS = 5,   /* elf numbers are distinct */
    GELRUPTAI_RULE_OVERLAPS = 6,      /* in an Executable no byte is in two sections */
    GELRUPTAI_RULE_CODE_WORDS = 7,    /* at most 262,144 Code words */
    GELRUPTAI_RULE_BOUNDS = 8,        /* each bound relocation: in an existing section, a known kind, an existing symbol section or none */
    GELRUPTAI_RULE_BOUND_ORDER = 9,   /* bound relocations ascend */
    GELRUPTAI_RULE_UNBOUNDS = 10,     /* each unbound relocation: in an existing section, a known kind */
    GELRUPTAI_RULE_SYMBOLS = 11,      /* each object symbol: an existing section, a flag of 0 or 1 */
    GELRUPTAI_RULE_SYMBOL_ORDER = 12, /* object symbols ascend */
    GELRUPTAI_RULE_DATA = 13          /* each section's data lies in the data bytes */
};

/* What is wrong with an image file, as gelruptai_read_file answers it (docs/FORMATS.md, "The image file"). */
enum {
    GELRUPTAI_FILE_SHORT = 1,       /* it ends inside its head */
    GELRUPTAI_FILE_MAGIC = 2,       /* it does not begin with the letters GELR */
    GELRUPTAI_FILE_VERSION = 3,     /* it is not of version 1 */
    GELRUPTAI_FILE_FLAG = 4,        /* a flag is neither 0 nor 1 */
    GELRUPTAI_FILE_UNUSED = 5,      /* a number that is not given is not 0 */
    GELRUPTAI_FILE_TRUNCATED = 6,   /* it ends before its counts say */
    GELRUPTAI_FILE_TRAILING = 7,    /* it goes on after its counts say */
    GELRUPTAI_FILE_WORDS_ROOM = 8,  /* it has more image words than there is room for */
    GELRUPTAI_FILE_STARTS_ROOM = 9  /* it has more starts than there is room for */
};

/* Sizes, in elements. No sound image needs a longer list of words, or a longer map. */
enum {
    GELRUPTAI_IMAGE_WORDS = 65926, /* 6, 64 sections of 6, 4,096 of 6, of 6 and of 4 */
    GELRUPTAI_MAP_WORDS = 8192,    /* a bit for each of 262,144 Code words */
    GELRUPTAI_ENTRIES = 1024,      /* the entries that a walk reads of one table */
    GELRUPTAI_GIVEN = 9            /* below */
};

/* The nine words that a walk is given besides its starts, `given`:
 *   0, 1  r2: 1 if its number is known, its number
 *   2, 3  r13: likewise
 *   4, 5  where the function starts in which tables of unknown size are guessed: section (index), address
 *   6..8  where that function ends: 1 if it is known, section (index), address
 * A flag that is not 1 says that the number is not known. */

/* The number of the first rule that an image with so many data bytes breaks; 0 where it is sound. */
uint32_t gelruptai_check_image(const uint32_t *image, size_t image_length, size_t data_length);

/* W, how many Code words an image has; 0 where the image is broken. They are numbered through the Code sections in their order, and
 * a map has a bit for each: word n is bit n % 32, from the lowest, of map[n / 32]. */
size_t gelruptai_code_words(const uint32_t *image, size_t image_length, const uint8_t *data, size_t data_length);

/* The fewest words of a stack on which so many states can wait. */
size_t gelruptai_stack_words(uint32_t states);

/* The walk from its starts, each a section's index times 2^32 plus an address. Answers 0; or 1, 4, 2 or 3, judged in this order, which
 * leave map, stack and entries as they were and counts all 0; or 5, with map, stack and counts as reached.
 * Bits 0 to W - 1 of the map become: visited or not. Bits from W up stay. stack and entries are scratch.
 * counts becomes: instructions stepped, blocks begun, tables read, tables not read, states that still wait (only after 5). */
uint32_t gelruptai_walk(const uint32_t *image, size_t image_length, const uint8_t *data, size_t data_length, const uint64_t *starts,
                        size_t starts_length, const uint32_t given[9], uint32_t *map, size_t map_length, uint32_t *stack,
                        size_t stack_length, uint64_t entries[1024], uint64_t counts[5]);

/* The entries of the jump table at a place, of so many bytes (0: not known, and guessed within the function of given[4] to given[8]).
 * The known size of an object symbol there beats it. Answers 0 with the entries, ascending and distinct, at the start of the
 * buffer, each a section's index times 2^32 plus an address, and zeros after them; or 1, which leaves the buffer as it was; or 8, 7,
 * 9, 10 with a buffer of zeros. counts becomes: entries, bytes passed; both 0 where it was refused. */
uint32_t gelruptai_table(const uint32_t *image, size_t image_length, const uint8_t *data, size_t data_length, uint32_t section,
                         uint32_t address, uint32_t size, const uint32_t given[9], uint64_t *entries, size_t entries_length,
                         uint64_t counts[2]);

/* The report, version 1, of a map. Answers 0, with *written bytes at the start of the buffer and the rest as it was; 1 or 4, which leave
 * it as it was; 10, a buffer of zeros. *written is 0 where it was refused. W + 8 bytes for each section + 10 are always enough. */
uint32_t gelruptai_write_report(const uint32_t *image, size_t image_length, const uint8_t *data, size_t data_length,
                                const uint32_t *map, size_t map_length, uint8_t *out, size_t out_length, size_t *written);

/* A report read into a map: bits 0 to W - 1 become the report's, bits from W up stay. Answers 0; or 1, 4 or 13, which leave the map as it
 * was. */
uint32_t gelruptai_read_report(const uint32_t *image, size_t image_length, const uint8_t *data, size_t data_length,
                               const uint8_t *report, size_t report_length, uint32_t *map, size_t map_length);

/* An image file's words at the start of image, its starts at the start of starts, and what a walk over it is given. Answers 0, and counts
 * becomes: image words, starts, the byte where the data begins, data bytes; or the number of what is wrong, which leaves all else
 * as it was, and counts becomes: the byte where that shows, 0, 0, 0. The data is the file's own bytes from there to its end. */
uint32_t gelruptai_read_file(const uint8_t *file, size_t file_length, uint32_t *image, size_t image_length, uint64_t *starts,
                             size_t starts_length, uint32_t given[9], uint64_t counts[4]);

#ifdef __cplusplus
}
#endif

#endif
