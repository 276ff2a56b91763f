/* link FILE: a walk over an image file by way of libgelruptai.a, its report written and read back, and what is refused.
 * Prints the counts as ./audit does; exits with 1 where the library answered something else than is expected here.
 * `wrapper/test` builds and runs it. */
#include "gelruptai.h"

#include <stdio.h>
#include <stdlib.h>
#include <string.h>

#define STATES 64
#define STARTS 16384

static uint8_t file[1 << 20], report[1 << 19];
static uint32_t image[GELRUPTAI_IMAGE_WORDS], given[GELRUPTAI_GIVEN];
static uint32_t map[GELRUPTAI_MAP_WORDS], again[GELRUPTAI_MAP_WORDS];
static uint64_t starts[STARTS], entries[GELRUPTAI_ENTRIES], counts[5], found[4];

static const uint8_t *data;
static size_t data_length;
static uint32_t *stack;

static int wrong;

static void say(const char *what, uint64_t number)
{
    printf("%-17s%llu\n", what, (unsigned long long)number);
}

static void expect(const char *what, uint64_t is, uint64_t expected)
{
    if (is != expected) {
        printf("%s: %llu, not %llu\n", what, (unsigned long long)is, (unsigned long long)expected);
        wrong = 1;
    }
}

/* The walk over the image's first words, from some starts, in a part of the map and of the stack. */
static uint32_t walk(size_t words, const uint64_t *from, size_t from_count, size_t map_words, size_t stack_words)
{
    return gelruptai_walk(image, words, data, data_length, from, from_count, given, map, map_words, stack, stack_words, entries, counts);
}

int main(int argc, char **argv)
{
    FILE *in = argc == 2 ? fopen(argv[1], "rb") : NULL;
    if (!in) {
        fputs("usage: link FILE\n", stderr);
        return 2;
    }
    size_t length = fread(file, 1, sizeof file, in);
    fclose(in);
    uint32_t answer = gelruptai_read_file(file, length, image, GELRUPTAI_IMAGE_WORDS, starts, STARTS, given, found);
    if (answer) {
        printf("no image file: %u at byte %llu\n", answer, (unsigned long long)found[0]);
        return 1;
    }
    size_t words = found[0], start_count = found[1];
    data = file + found[2];
    data_length = found[3];
    size_t stack_words = gelruptai_stack_words(STATES);
    stack = calloc(stack_words, sizeof *stack);
    if (!stack)
        return 2;

    expect("check_image", gelruptai_check_image(image, words, data_length), GELRUPTAI_SOUND);
    expect("check_image, a word less", gelruptai_check_image(image, words - 1, data_length), GELRUPTAI_RULE_WORDS);

    expect("walk", walk(words, starts, start_count, GELRUPTAI_MAP_WORDS, stack_words), GELRUPTAI_DONE);
    size_t code_words = gelruptai_code_words(image, words, data, data_length), visited = 0;
    for (size_t n = 0; n < code_words; n++)
        visited += map[n / 32] >> n % 32 & 1;
    say("code words", code_words);
    say("visited", visited);
    say("blocks begun", counts[1]);
    say("steps", counts[0]);
    say("tables read", counts[2]);
    say("tables not read", counts[3]);
    say("states waiting", counts[4]);

    size_t written;
    expect("write_report",
           gelruptai_write_report(image, words, data, data_length, map, GELRUPTAI_MAP_WORDS, report, sizeof report, &written),
           GELRUPTAI_DONE);
    expect("read_report",
           gelruptai_read_report(image, words, data, data_length, report, written, again, GELRUPTAI_MAP_WORDS),
           GELRUPTAI_DONE);
    expect("the map read back", memcmp(map, again, sizeof map) != 0, 0);

    uint64_t outside = (uint64_t)0xffffffff << 32, between = starts[0] + 2;
    expect("a broken image", walk(words - 1, starts, start_count, GELRUPTAI_MAP_WORDS, stack_words), GELRUPTAI_BROKEN_IMAGE);
    expect("a start outside", walk(words, &outside, 1, GELRUPTAI_MAP_WORDS, stack_words), GELRUPTAI_NOT_CODE);
    expect("a start between words", walk(words, &between, 1, GELRUPTAI_MAP_WORDS, stack_words), GELRUPTAI_MISALIGNED);
    expect("a map of no bits", walk(words, starts, start_count, 0, stack_words), GELRUPTAI_MAP_TOO_SMALL);
    expect("the map after refusals", memcmp(map, again, sizeof map) != 0, 0);
    expect("a stack without room", walk(words, starts, start_count, GELRUPTAI_MAP_WORDS, 2), GELRUPTAI_STACK_FULL);
    free(stack);
    return wrong;
}
