/* Runs an event list and prints the answers and the accepted writes.
 *
 * Usage: host [FILE]. Without FILE the list is read from standard input. The
 * exit status is 0 whenever the list was read and the output written, also for
 * a list that is refused.
 *
 * Build: gcc -std=c11 -Iinclude -o host examples/host.c libhoefspanker.a */
#include "hoefspanker.h"

#include <inttypes.h>
#include <stdio.h>
#include <stdlib.h>

/* One byte more than the longest list, so that a longer one is noticed. */
static uint8_t list[HOEFSPANKER_LONGEST_LIST + 1];
static uint8_t out[HOEFSPANKER_MOST_OUT_BYTES];

/* Four bytes, the least first. */
static uint32_t number_at(const uint8_t *bytes)
{
    return (uint32_t)bytes[0] | (uint32_t)bytes[1] << 8
        | (uint32_t)bytes[2] << 16 | (uint32_t)bytes[3] << 24;
}

static void print_answers(const uint8_t *records, uint32_t count)
{
    for (uint32_t i = 0; i < count; i++) {
        const uint8_t *record = records + (size_t)i * HOEFSPANKER_RECORD_BYTES;
        printf("%" PRIu32 " %d %d %d\n", i + 1, record[0], record[1], out[i]);
    }
}

static void print_writes(const uint8_t *history, uint32_t writes)
{
    printf("writes %" PRIu32 "\n", writes);
    for (uint32_t i = 0; i < writes; i++) {
        const uint8_t *entry = history + (size_t)i * HOEFSPANKER_ENTRY_BYTES;
        printf("%d %d\n", entry[0], entry[2] | entry[3] << 8);
    }
}

/* The trailer of a list that was run is good, so its numbers can be used. */
static void print_run(size_t list_len, uint32_t writes)
{
    const uint8_t *trailer = list + list_len - HOEFSPANKER_TRAILER_BYTES;
    uint32_t first = number_at(trailer);
    uint32_t count = number_at(trailer + 4);

    print_answers(list + first, count);
    print_writes(out + count, writes);
}

static int run_from(FILE *source)
{
    size_t list_len = fread(list, 1, sizeof list, source);
    uint32_t result;

    if (ferror(source)) {
        perror("read");
        return EXIT_FAILURE;
    }
    result = hoefspanker_run(list, list_len, out, sizeof out);
    if (result < HOEFSPANKER_RAN)
        printf("refused %" PRIu32 "\n", result);
    else
        print_run(list_len, result - HOEFSPANKER_RAN);
    if (fflush(stdout) != 0) {
        perror("write");
        return EXIT_FAILURE;
    }
    return EXIT_SUCCESS;
}

int main(int argc, char **argv)
{
    FILE *source = stdin;
    int status;

    if (argc > 2) {
        fprintf(stderr, "usage: host [FILE]\n");
        return EXIT_FAILURE;
    }
    if (argc == 2 && (source = fopen(argv[1], "rb")) == NULL) {
        perror(argv[1]);
        return EXIT_FAILURE;
    }
    status = run_from(source);
    if (source != stdin)
        fclose(source);
    return status;
}
