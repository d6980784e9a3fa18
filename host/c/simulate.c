/*
 * Runs a bath file from standard input and prints its report.
 * Build, from the repository's root, after `tools/library`:
 *     cc -Iinclude host/c/simulate.c target/staticlib/libgondwize.a -o simulate
 */
#include <inttypes.h>
#include <signal.h>
#include <stdio.h>

#include "gondwize.h"

/* Exit statuses: the input or the report failed; the file is refused. */
enum { FAILED_STREAM = 1, REFUSED_FILE = 2 };

/* A byte more than the longest file has, so that a longer one is not taken for it. */
static uint8_t file[GONDWIZE_MOST_FILE_LENGTH + 1];
static uint64_t mass[GONDWIZE_MOST_GRID];
static int64_t px[GONDWIZE_MOST_GRID], py[GONDWIZE_MOST_GRID];

static void print_totals(size_t nx, size_t ny, const uint8_t *records, size_t length)
{
    int64_t t[GONDWIZE_TOTALS_VALUES];
    if (gondwize_totals(nx, ny, records, length, t) == 0)
        printf("mass %" PRId64 " px %" PRId64 " py %" PRId64 " spin %" PRId64 " motion %" PRId64
               " marks %" PRId64 "\n", t[0], t[1], t[2], t[3], t[4], t[5]);
}

static void print_records(const uint8_t *records, size_t length)
{
    int64_t p[GONDWIZE_PARTICLE_VALUES];
    for (size_t at = 0; at < length; at += GONDWIZE_RECORD_LENGTH) {
        if (gondwize_read_record(records + at, GONDWIZE_RECORD_LENGTH, p) != 0)
            continue;
        for (size_t k = 0; k < GONDWIZE_PARTICLE_VALUES; k++)
            printf("%" PRId64 "%c", p[k], k + 1 < GONDWIZE_PARTICLE_VALUES ? ' ' : '\n');
    }
}

/* The exit status, or that of a failure where a part of what was printed could not be written. */
static int finished(int status)
{
    int failed = ferror(stdout);
    if (fclose(stdout) == 0 && !failed)
        return status;
    fputs("gondwize: the report could not be written in full\n", stderr);
    return FAILED_STREAM;
}

int main(void)
{
#ifdef SIGPIPE
    /* A reader that left is a report that could not be written. */
    signal(SIGPIPE, SIG_IGN);
#endif
    size_t length = fread(file, 1, sizeof file, stdin);
    if (ferror(stdin)) {
        fputs("gondwize: the input could not be read\n", stderr);
        return FAILED_STREAM;
    }
    int64_t header[GONDWIZE_HEADER_VALUES];
    uint64_t answer = gondwize_read_file(file, length, header);
    if (answer != 0) {
        uint32_t number = GONDWIZE_NUMBER(answer), place = GONDWIZE_PLACE(answer);
        printf("refused %" PRIu32 " at %" PRIu32 "\n", number, place);
        int status = finished(REFUSED_FILE);
        if (status == REFUSED_FILE)
            fprintf(stderr, "gondwize: refused %" PRIu32 " at %" PRIu32 ": %s\n", number, place,
                    gondwize_refusal_text(number));
        return status;
    }
    size_t nx = (size_t)header[0], ny = (size_t)header[1], nodes = nx * ny;
    uint8_t *records = file + GONDWIZE_HEADER_LENGTH;
    size_t bytes = length - GONDWIZE_HEADER_LENGTH;
    uint64_t completed = 0;
    answer = gondwize_run(nx, ny, header[2], header[3], (size_t)header[6], (size_t)header[7],
                          (size_t)header[8], (size_t)header[5], records, bytes,
                          mass, nodes, px, nodes, py, nodes, &completed);
    printf("done %" PRIu64 " refusal %" PRIu32 " at %" PRIu32 "\n", completed,
           GONDWIZE_NUMBER(answer), GONDWIZE_PLACE(answer));
    print_totals(nx, ny, records, bytes);
    print_records(records, bytes);
    return finished(0);
}
