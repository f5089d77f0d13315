/*
 * pyx2nt for a host: reads the PYX files that are named, each a document without base, and writes
 * their lines to standard output; after a refusal one last line `# refused N at event K`, as
 * document 01's pyx2nt does. Status 0: all read; 1: a refusal, or a file that cannot be read;
 * 2: standard output cannot be written.
 */
#include <stdio.h>
#include <stdlib.h>
#include <string.h>

#include "iceshaft.h"

/* Room for one event and a block behind it, so that a step never waits with a full buffer. */
#define INPUT_BYTES (2 * 65536)

/* The output room that pyx2nt gives an event. */
#define ROOM_BYTES 65536

static uint8_t state[ICESHAFT_STATE_BYTES];
static uint8_t work[ICESHAFT_WORK_BYTES];
static uint8_t ids[ICESHAFT_IDS_BYTES];
static uint8_t input[INPUT_BYTES];
static uint8_t out[ROOM_BYTES];

static void put(const void *bytes, size_t n)
{
    if (fwrite(bytes, 1, n, stdout) != n) {
        perror("pyx2nt");
        exit(2);
    }
}

/* The input from `at` on, moved to the front, with what the file has behind it. */
static size_t refill(FILE *in, size_t at, size_t end, uint32_t *last)
{
    memmove(input, input + at, end - at);
    end -= at;
    size_t got = fread(input + end, 1, INPUT_BYTES - end, in);
    if (got == 0)
        *last = 1;
    return end + got;
}

/* All steps of a document, then finish; the event's number in `*event`. */
static uint8_t run(FILE *in, unsigned long *event)
{
    size_t at = 0, end = 0;
    uint32_t last = 0;
    for (*event = 1;; ) {
        size_t consumed, written;
        uint8_t answer = iceshaft_step(state, sizeof state, work, sizeof work, ids, sizeof ids,
                                       input + at, end - at, last, out, sizeof out,
                                       &consumed, &written);
        if (answer == ICESHAFT_INCOMPLETE) {
            if (last)
                return iceshaft_finish(state, sizeof state, work, sizeof work, ids, sizeof ids);
            end = refill(in, at, end, &last);
            at = 0;
            continue;
        }
        if (answer != ICESHAFT_DONE)
            return answer;
        put(out, written);
        at += consumed;
        ++*event;
    }
}

/* One document: 0, or 1 where it was refused. */
static int document(FILE *in)
{
    unsigned long event = 0;
    uint8_t answer = iceshaft_start(state, sizeof state, work, sizeof work, ids, sizeof ids,
                                    ICESHAFT_BASE, 0, NULL, 0);
    if (answer == ICESHAFT_DONE)
        answer = run(in, &event);
    if (answer == ICESHAFT_DONE)
        return 0;
    char line[64];
    put(line, (size_t)snprintf(line, sizeof line, "# refused %u at event %lu\n", answer, event));
    return 1;
}

int main(int argc, char **argv)
{
    int status = 0;
    for (int i = 1; i < argc; i++) {
        FILE *in = fopen(argv[i], "rb");
        if (in == NULL) {
            perror(argv[i]);
            status = 1;
            continue;
        }
        status |= document(in);
        if (ferror(in)) {
            perror(argv[i]);
            status = 1;
        }
        fclose(in);
    }
    if (fflush(stdout) != 0) {
        perror("pyx2nt");
        return 2;
    }
    return status;
}
