/* What the examples share: how they end, answers, limits of the command line, files read whole, buffers. PROGRAM is the program's name. */
#include <errno.h>
#include <stdio.h>
#include <stdlib.h>
#include <string.h>
#include "struo.h"

enum { REFUSED = 1, NOTHING_DONE = 2 };

static int fail(const char *what, const char *why)
{
    fprintf(stderr, PROGRAM ": %s: %s\n", what, why);
    return NOTHING_DONE;
}

static void print_answer(const char *call, const uint32_t answer[3])
{
    printf("%s %u %u %u\n", call, answer[0], answer[1], answer[2]);
}

struct bytes {
    uint8_t *start;
    size_t length;
};

/* All bytes of a file; start is null if they cannot be had, and errno says why. */
static struct bytes read_file(const char *path)
{
    struct bytes none = {NULL, 0}, read = {malloc(4096), 0};
    size_t room = 4096;
    FILE *file = fopen(path, "rb");
    if (file == NULL || read.start == NULL)
        goto failed;
    for (;;) {
        size_t got = fread(read.start + read.length, 1, room - read.length, file);
        read.length += got;
        if (got == 0)
            break;
        if (read.length == room) {
            uint8_t *larger = realloc(read.start, 2 * room);
            if (larger == NULL)
                goto failed;
            read.start = larger;
            room *= 2;
        }
    }
    if (ferror(file))
        goto failed;
    fclose(file);
    return read;
failed:
    free(read.start);
    if (file != NULL)
        fclose(file);
    return none;
}

/* A limit written in decimal; 0 if it is none of 32 bits. */
static int limit(const char *text, uint32_t *value)
{
    char *end;
    errno = 0;
    unsigned long long number = strtoull(text, &end, 10);
    *value = (uint32_t)number;
    return text[0] >= '0' && text[0] <= '9' && *end == 0 && errno == 0 && number <= UINT32_MAX;
}

struct buffers {
    uint32_t *netlist, *scratch;
    size_t netlist_len, scratch_len;
};

static void free_buffers(struct buffers buffers)
{
    free(buffers.netlist);
    free(buffers.scratch);
}

/* Buffers for any image under these limits; 0 if there is no memory. */
static int make_buffers(uint32_t n, uint32_t p, struct buffers *buffers)
{
    /* Limits that are too large are refused whatever the buffers: room for the largest serves. */
    buffers->netlist_len = STRUO_NETLIST_WORDS(n <= 65535 ? n : 0, p <= 65535 ? p : 0);
    buffers->scratch_len = STRUO_SCRATCH_MOST(n <= 65535 ? n : 0);
    buffers->netlist = malloc(buffers->netlist_len * sizeof *buffers->netlist);
    buffers->scratch = malloc(buffers->scratch_len * sizeof *buffers->scratch);
    if (buffers->netlist != NULL && buffers->scratch != NULL)
        return 1;
    free_buffers(*buffers);
    fail("buffers", "no memory");
    return 0;
}
