/* Reads a module image from a file, checks it, lowers it, and prints both answers and how much the netlist has of each sort.
 *
 *     lower IMAGE [NETS WORDS]
 *
 * Ends with 0 if the image is accepted, 1 if it is refused, 2 if there is nothing to lower. */
#define PROGRAM "lower"
#include "common.h"

static void print_counts(const uint32_t *netlist)
{
    printf("nets %u\n", netlist[STRUO_NETS]);
    printf("list words %u\n", netlist[STRUO_LIST_USED]);
    printf("ports %u\n", netlist[STRUO_PORTS]);
    printf("registers %u\n", netlist[STRUO_REGISTERS]);
    printf("memories %u\n", netlist[STRUO_MEMORIES]);
    printf("arithmetic %u\n", netlist[STRUO_ARITHMETIC]);
    printf("comparisons %u\n", netlist[STRUO_COMPARISONS]);
}

/* Checks and lowers into these buffers. */
static int lower(struct bytes image, uint32_t n, uint32_t p, struct buffers to)
{
    uint32_t answer[3];
    if (struo_try_check(image.start, image.length, n, p, to.netlist_len, to.scratch_len, answer) != STRUO_CALLED)
        return fail("struo_check", "a pointer or length is wrong");
    print_answer("check", answer);
    if (struo_try_lower(image.start, image.length, n, p, to.netlist, to.netlist_len, to.scratch, to.scratch_len, answer) != STRUO_CALLED)
        return fail("struo_lower", "a pointer or length is wrong");
    print_answer("lower", answer);
    if (answer[0] != STRUO_ACCEPTED)
        return REFUSED;
    print_counts(to.netlist);
    return 0;
}

int main(int count, char **words)
{
    uint32_t n = 65535, p = 65535;
    if (count != 2 && count != 4)
        return fail("usage", "lower IMAGE [NETS WORDS]");
    if (count == 4 && (!limit(words[2], &n) || !limit(words[3], &p)))
        return fail("limits", "two numbers of 32 bits are needed");
    struct bytes image = read_file(words[1]);
    if (image.start == NULL)
        return fail(words[1], strerror(errno));
    struct buffers to;
    int status = NOTHING_DONE;
    if (make_buffers(n, p, &to)) {
        status = lower(image, n, p, to);
        free_buffers(to);
    }
    free(image.start);
    return status;
}
