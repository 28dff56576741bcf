/* Lowers a module image, stores its netlist in a file, opens the file again, checks what it holds, and prints its nodes and records one by
 * one.
 *
 *     reopen IMAGE STORED [NETS WORDS]
 *     reopen STORED                       opens a netlist that was stored before
 *
 * A stored netlist is its words up to the last list word used, four bytes each, low first. A node is printed as its net and its six words, a
 * record as the list word at which it begins and its words. Ends with 0 if the netlist is accepted, 1 if the image or the netlist is refused,
 * 2 if there is nothing to open. */
#define PROGRAM "reopen"
#include "common.h"

/* Writes the words of an accepted netlist. */
static int store(const char *path, const uint32_t *netlist)
{
    size_t words = (size_t)netlist[STRUO_LIST_AT] + netlist[STRUO_LIST_USED];
    FILE *file = fopen(path, "wb");
    if (file == NULL)
        return fail(path, strerror(errno));
    size_t written = fwrite(netlist, sizeof *netlist, words, file);
    if (fclose(file) != 0 || written != words)
        return fail(path, "cannot be written");
    return 0;
}

/* Lowers an image and stores its netlist. */
static int lower_and_store(struct bytes image, const char *path, uint32_t n, uint32_t p)
{
    uint32_t answer[3];
    struct buffers to;
    if (!make_buffers(n, p, &to))
        return NOTHING_DONE;
    int status = NOTHING_DONE;
    if (struo_try_lower(image.start, image.length, n, p, to.netlist, to.netlist_len, to.scratch, to.scratch_len, answer) != STRUO_CALLED)
        fail("struo_lower", "a pointer or length is wrong");
    else {
        print_answer("lower", answer);
        status = answer[0] == STRUO_ACCEPTED ? store(path, to.netlist) : REFUSED;
    }
    free_buffers(to);
    return status;
}

static void print_words(const uint32_t *words, size_t count)
{
    for (size_t i = 0; i < count; i++)
        printf(" %u", words[i]);
    printf("\n");
}

/* Net 0, 1, .. until one is not there. */
static int print_nodes(const uint32_t *netlist, size_t length)
{
    uint32_t node[6], given;
    for (uint32_t net = 0;; net++) {
        if (struo_try_netlist_node(netlist, length, net, node, &given) != STRUO_CALLED)
            return fail("struo_netlist_node", "a pointer or length is wrong");
        if (!given)
            return 0;
        printf("node %u", net);
        print_words(node, 6);
    }
}

/* List word 0, then where the next record begins, until there is none. */
static int print_records(const uint32_t *netlist, size_t length)
{
    uint32_t record[3], given;
    for (uint32_t at = 0;; at = record[2]) {
        if (struo_try_netlist_record(netlist, length, at, record, &given) != STRUO_CALLED)
            return fail("struo_netlist_record", "a pointer or length is wrong");
        if (!given)
            return 0;
        printf("record %u", at);
        print_words(netlist + netlist[STRUO_LIST_AT] + at, record[1]);
    }
}

/* Checks a stored netlist, and prints what it holds. */
static int open_netlist(const uint32_t *netlist, size_t length)
{
    uint32_t answer[3];
    if (struo_try_netlist_check(netlist, length, answer) != STRUO_CALLED)
        return fail("struo_netlist_check", "a pointer or length is wrong");
    print_answer("netlist", answer);
    if (answer[0] != STRUO_ACCEPTED)
        return REFUSED;
    int status = print_nodes(netlist, length);
    return status != 0 ? status : print_records(netlist, length);
}

static int open_file(const char *path)
{
    struct bytes stored = read_file(path);
    if (stored.start == NULL)
        return fail(path, strerror(errno));
    int status = NOTHING_DONE;
    if (stored.length % sizeof(uint32_t) != 0)
        fail(path, "no whole words");
    else /* The bytes stand in memory as malloc aligns it, and low first is this machine's order. */
        status = open_netlist((const uint32_t *)(const void *)stored.start, stored.length / sizeof(uint32_t));
    free(stored.start);
    return status;
}

int main(int count, char **words)
{
    uint32_t n = 65535, p = 65535;
    if (count != 2 && count != 3 && count != 5)
        return fail("usage", "reopen IMAGE STORED [NETS WORDS], or reopen STORED");
    if (count == 5 && (!limit(words[3], &n) || !limit(words[4], &p)))
        return fail("limits", "two numbers of 32 bits are needed");
    if (count > 2) {
        struct bytes image = read_file(words[1]);
        if (image.start == NULL)
            return fail(words[1], strerror(errno));
        int status = lower_and_store(image, words[2], n, p);
        free(image.start);
        if (status != 0)
            return status;
    }
    return open_file(words[count > 2 ? 2 : 1]);
}
