/* libstruo: checks a module image (bytes) and lowers it into a netlist image (32-bit words) in lent buffers; checks a stored netlist image,
 * and gives its nodes and records one by one.
 *
 * `oracle/build-library` writes target/staticlib/libstruo.a, for x86-64 Linux. The functions ask for no memory and keep nothing between
 * calls, so threads may call them at the same time; of the C library the compiler uses memcpy and memset. Each is proved to end, and to
 * keep its contract, for all bytes, limits and buffer lengths. The contracts stand in crates/struo_c/src/lib.rt, which exports the functions
 * of crates/struo, and in crates/spec_rules/specs/Promise.antt; here they are in words. The formats: docs/FORMATS.md. The rules: docs/RULES.md.
 *
 * Nothing is asked of the bytes of a module image and of the words of a stored netlist: any are answered.
 *
 * What is asked of the caller, since a contract cannot say it:
 * - No pointer is null, also where its length is 0.
 * - `image` can be read for `image_len` bytes, `netlist` and `scratch` can be read and written for their lengths (a netlist that is const
 *   is only read), `answer` and `record` for 3 words, `node` for 6.
 * - `netlist`, `scratch`, `answer`, `node` and `record` are aligned to 4 bytes. `image` may stand anywhere.
 * - `image_len` is below 2^63, `netlist_len` and `scratch_len` are below 2^63 / 4.
 * - Of what one call is lent, none overlaps another, and nothing else writes it during the call.
 * - The thread has STRUO_STACK_KB of stack left for struo_check and struo_lower: the lowering calls itself as deep as expressions and
 *   signals of the module nest. For the netlist calls it has STRUO_NETLIST_STACK_KB. No theorem bounds the stack of compiled code; the
 *   figures are counted from the library's frames, the first also from the levels that an image can have.
 *
 * The forms struo_try_.. below test what of this can be tested before they call.
 */
#ifndef STRUO_H
#define STRUO_H

#include <stddef.h>
#include <stdint.h>

#ifdef __cplusplus
extern "C" {
#endif

/* The first of an answer's three numbers. The other two are its place, 0 where none is named. */
enum struo_answer {
    STRUO_ACCEPTED = 0,
    /* The caller. */
    STRUO_LIMITS = 1,        /* n is outside 1 to 65,535 or p outside 0 to 65,535 */
    STRUO_NETLIST_SHORT = 2, /* the netlist buffer has fewer words than STRUO_NETLIST_WORDS(n, p) */
    STRUO_SCRATCH_SHORT = 5, /* the scratch has fewer words than STRUO_SCRATCH_WORDS(..) */
    /* Whoever writes the image. */
    STRUO_FIELD = 3,  /* a header field is wrong. Place: the first such field (0 to 15), then 0. Field 0 if the edition is not 2 or there
                         are fewer than 64 bytes, 1 if the length is not the total, 14 if the names do not end at the total. */
    STRUO_RECORD = 4, /* a record breaks a rule. Place: its section (0 signals, 1 expressions, 3 assignments, 4 registers, 5 memories),
                         its number; the first such record in the image. */
    /* The designer. */
    STRUO_UNDRIVEN = 6, /* a bit that is needed has no driver. Place: the signal, the bit. */
    STRUO_LOOP = 7,     /* a combinational loop. Place: the signal and the bit through which it was met. */
    STRUO_RESET = 8,    /* a bit of a reset value is no constant net. Place: the register, the bit. */
    /* Designer and caller. */
    STRUO_TOO_MANY_NETS = 9, /* net n + 1 would be made */
    STRUO_LIST_FULL = 10,    /* a list record would pass p list words */
    /* Whoever stores the netlist. */
    STRUO_NETLIST_WORD = 11 /* a stored netlist image breaks a rule. Place: the number of the first wrong word in the slice, then 0; the
                               slice's length where it ends too early. docs/RULES.md, stored netlist, has the rules and the order. */
};

/* Words that the netlist buffer must have for net limit n and list limit p. */
#define STRUO_NETLIST_WORDS(n, p) ((size_t)16 + 6 * (size_t)(n) + (size_t)(p))

/* Words that the scratch must have for net limit n and an image whose signals have signal_bits bits in all, whose expressions have
 * expression_bits bits in all, and that has so many expressions (docs/RULES.md, buffers). */
#define STRUO_SCRATCH_WORDS(signal_bits, expression_bits, expressions, n) \
    (4 * (size_t)(signal_bits) + (size_t)(expression_bits) + 8 * (size_t)(expressions) + 4 * (size_t)(n) + 64)

/* Words of scratch that serve every image with net limit n. */
#define STRUO_SCRATCH_MOST(n) STRUO_SCRATCH_WORDS(4096, 32768, 2048, n)

/* A stack that serves every image, in units of 1,024 bytes (docs/BENCH.md, Stack; oracle/stack-bound counts this one and the next anew from
 * the library); modules that nest less take less. */
#define STRUO_STACK_KB 7680

/* A stack that serves struo_netlist_check, struo_netlist_node and struo_netlist_record for every netlist, in units of 1,024 bytes: the
 * check's table is a local array. */
#define STRUO_NETLIST_STACK_KB 512

/* Checks an image: refusals 1, 2, 3, 4, 5, in this order, for net limit n, list limit p and buffers of so many words.
 *
 * answer is the first of these refusals that applies, its number and its place, or 0 0 0. Nothing else is written. The buffers need not
 * be there; their lengths may be any numbers. */
void struo_check(const uint8_t *image, size_t image_len, uint32_t n, uint32_t p, size_t netlist_words, size_t scratch_words,
                 uint32_t answer[3]);

/* Lowers an image into netlist, with at most n nets and p list words.
 *
 * answer is that of struo_check for these buffers' lengths; where that is 0 0 0, the first of refusals 6 to 10 that the lowering meets,
 * or 0 0 0 for acceptance. Afterwards:
 *
 *   answer     first STRUO_NETLIST_WORDS(n, p) words of netlist              first STRUO_SCRATCH_WORDS(..) words of scratch
 *   1 to 5     as they were                                                  as they were
 *   6 to 10    all 0                                                         all 0
 *   0          the netlist image, its unused node and list words 0           all 0
 *
 * Words beyond these are as they were. What the buffers hold at entry does not matter.
 *
 * An accepted netlist image does what the module does: where clocks and asynchronous resets are inputs, from all first contents of
 * registers and memories and over every list of input settings, outputs, register bits, read data and memory words are equal after
 * each step, up to the first one in which both ports of a memory write one word, which both meet in the same step (`Demand3` in
 * crates/spec_rules/specs/Step.antt). */
void struo_lower(const uint8_t *image, size_t image_len, uint32_t n, uint32_t p, uint32_t *netlist, size_t netlist_len,
                 uint32_t *scratch, size_t scratch_len, uint32_t answer[3]);

/* Words of a netlist image's header; those from 10 on are 0. */
enum struo_header {
    STRUO_EDITION = 0,    /* 1: the netlist image's own */
    STRUO_NETS = 1,       /* nets; net k is node k */
    STRUO_NODES_AT = 2,   /* 16: where the nodes begin, six words each: kind, owner or constant value, bit, three inputs */
    STRUO_LIST_USED = 3,  /* list words in use */
    STRUO_LIST_AT = 4,    /* 16 + 6n: where the list records begin */
    STRUO_PORTS = 5,      /* list records of each sort */
    STRUO_REGISTERS = 6,
    STRUO_MEMORIES = 7,
    STRUO_ARITHMETIC = 8,
    STRUO_COMPARISONS = 9
};

/* A node's kind. */
enum struo_kind {
    STRUO_INPUT = 0,
    STRUO_CONSTANT = 1,
    STRUO_AND = 2,
    STRUO_OR = 3,
    STRUO_XOR = 4,
    STRUO_NOT = 5,
    STRUO_MUX = 6,
    STRUO_REGISTER_OUTPUT = 7,
    STRUO_OUTPUT = 8,
    STRUO_MEMORY_OUTPUT = 9,
    STRUO_ARITHMETIC_OUTPUT = 10,
    STRUO_COMPARISON_OUTPUT = 11
};

/* A list record's sort. */
enum struo_sort {
    STRUO_PORT_RECORD = 0,
    STRUO_REGISTER_RECORD = 1, /* one bit of a register */
    STRUO_MEMORY_RECORD = 2,
    STRUO_ARITHMETIC_RECORD = 3,
    STRUO_COMPARISON_RECORD = 4
};

/* A node's input, or a record's control, that is not there. */
#define STRUO_ABSENT UINT32_C(4294967295)

/* Checks a netlist image that was stored: refusal 11.
 *
 * netlist is the image from its first word on, in the machine's byte order. The net limit n it was made with follows from its word 4;
 * words past the list words used are not read, so the slice may be longer, and need not have the unused list words. answer is 0 0 0 for
 * acceptance, or 11, the number of the first wrong word, 0. Nothing else is written. Every netlist image that struo_lower leaves is
 * accepted. The time is linear in nets and list words, of refused slices too. */
void struo_netlist_check(const uint32_t *netlist, size_t netlist_len, uint32_t answer[3]);

/* Gives the node of a net.
 *
 * If net is below the net count (word 1 of netlist), the answer is 1 and node holds the node's six words: kind, owner or constant value,
 * bit, three inputs; a word past the slice's end reads as 0. Else the answer is 0, and node holds six zeros. The nodes begin at the word
 * that word 2 of netlist names, whatever it holds; the check asks for 16. Of a slice that struo_netlist_check accepts, the nets 0, 1, ..
 * below the net count give the nodes of docs/FORMATS.md. */
uint32_t struo_netlist_node(const uint32_t *netlist, size_t netlist_len, uint32_t net, uint32_t node[6]);

/* Gives the list record that begins at list word at, counted from the list's begin.
 *
 * The answer is 1 and record holds its sort (enum struo_sort), its length in words, and the list word at which the next one begins. The
 * answer is 0, and record holds three zeros, if at is not below the list words used (word 3 of netlist), if the sort is above 4, or if
 * the record does not fit into the list words used that the slice has from there on. Words 3 and 4 of netlist are taken as they stand, and
 * a memory record has the length of two ports if its port count is 2, else of one.
 *
 * Of a slice that struo_netlist_check accepts, list word 0 and then the next ones up to the first answer 0 give exactly its records; a list
 * word inside a record is taken as a first one, as it stands. Word k of a record is netlist[netlist[STRUO_LIST_AT] + at + k]. */
uint32_t struo_netlist_record(const uint32_t *netlist, size_t netlist_len, uint32_t at, uint32_t record[3]);

/* ---- Checked forms: they test every pointer and length, and call only if all are right. ---- */

/* What a checked form found; unless it is STRUO_CALLED, nothing was called and nothing written. */
enum struo_found {
    STRUO_CALLED = 0,
    STRUO_NULL = 1,      /* a pointer is null */
    STRUO_UNALIGNED = 2, /* a pointer to words is not aligned to 4 bytes */
    STRUO_TOO_LONG = 3,  /* a length is 2^63 bytes or more, or passes the end of the addresses */
    STRUO_OVERLAP = 4    /* two of the stretches that are lent overlap */
};

/* A stretch of memory, in bytes. */
struct struo_stretch {
    uintptr_t start;
    size_t bytes;
};

/* Tests `count` things of `size` bytes from `start` on, and gives their stretch. */
static inline enum struo_found struo_stretch_of(const volatile void *start, size_t count, size_t size, struct struo_stretch *stretch)
{
    const size_t most = SIZE_MAX / 2; /* 2^63 - 1 */
    stretch->start = (uintptr_t)start;
    stretch->bytes = 0;
    if (stretch->start == 0)
        return STRUO_NULL;
    if (stretch->start % size != 0)
        return STRUO_UNALIGNED;
    if (count > most / size || count * size > UINTPTR_MAX - stretch->start)
        return STRUO_TOO_LONG;
    stretch->bytes = count * size;
    return STRUO_CALLED;
}

/* Whether two of `count` stretches overlap; an empty one overlaps nothing. */
static inline int struo_overlap(const struct struo_stretch *stretches, size_t count)
{
    for (size_t i = 0; i < count; i++)
        for (size_t j = 0; j < i; j++) {
            struct struo_stretch a = stretches[i], b = stretches[j];
            if (a.bytes != 0 && b.bytes != 0 && a.start < b.start + b.bytes && b.start < a.start + a.bytes)
                return 1;
        }
    return 0;
}

/* struo_check, after the tests. */
static inline enum struo_found struo_try_check(const uint8_t *image, size_t image_len, uint32_t n, uint32_t p, size_t netlist_words,
                                               size_t scratch_words, uint32_t *answer)
{
    struct struo_stretch lent[2];
    enum struo_found found = struo_stretch_of(image, image_len, 1, &lent[0]);
    if (found == STRUO_CALLED)
        found = struo_stretch_of(answer, 3, sizeof *answer, &lent[1]);
    if (found == STRUO_CALLED && struo_overlap(lent, 2))
        found = STRUO_OVERLAP;
    if (found == STRUO_CALLED)
        struo_check(image, image_len, n, p, netlist_words, scratch_words, answer);
    return found;
}

/* struo_lower, after the tests. */
static inline enum struo_found struo_try_lower(const uint8_t *image, size_t image_len, uint32_t n, uint32_t p, uint32_t *netlist,
                                               size_t netlist_len, uint32_t *scratch, size_t scratch_len, uint32_t *answer)
{
    struct struo_stretch lent[4];
    enum struo_found found = struo_stretch_of(image, image_len, 1, &lent[0]);
    if (found == STRUO_CALLED)
        found = struo_stretch_of(netlist, netlist_len, sizeof *netlist, &lent[1]);
    if (found == STRUO_CALLED)
        found = struo_stretch_of(scratch, scratch_len, sizeof *scratch, &lent[2]);
    if (found == STRUO_CALLED)
        found = struo_stretch_of(answer, 3, sizeof *answer, &lent[3]);
    if (found == STRUO_CALLED && struo_overlap(lent, 4))
        found = STRUO_OVERLAP;
    if (found == STRUO_CALLED)
        struo_lower(image, image_len, n, p, netlist, netlist_len, scratch, scratch_len, answer);
    return found;
}

/* Tests a stored netlist and two stretches of words that are written. */
static inline enum struo_found struo_test_stored(const uint32_t *netlist, size_t netlist_len, const uint32_t *first, size_t first_len,
                                                 const uint32_t *second, size_t second_len)
{
    struct struo_stretch lent[3];
    enum struo_found found = struo_stretch_of(netlist, netlist_len, sizeof *netlist, &lent[0]);
    if (found == STRUO_CALLED)
        found = struo_stretch_of(first, first_len, sizeof *first, &lent[1]);
    if (found == STRUO_CALLED)
        found = struo_stretch_of(second, second_len, sizeof *second, &lent[2]);
    if (found == STRUO_CALLED && struo_overlap(lent, 3))
        found = STRUO_OVERLAP;
    return found;
}

/* struo_netlist_check, after the tests. */
static inline enum struo_found struo_try_netlist_check(const uint32_t *netlist, size_t netlist_len, uint32_t *answer)
{
    enum struo_found found = struo_test_stored(netlist, netlist_len, answer, 3, answer, 0);
    if (found == STRUO_CALLED)
        struo_netlist_check(netlist, netlist_len, answer);
    return found;
}

/* struo_netlist_node, after the tests; its answer, 1 or 0, is written to given. */
static inline enum struo_found struo_try_netlist_node(const uint32_t *netlist, size_t netlist_len, uint32_t net, uint32_t *node,
                                                      uint32_t *given)
{
    enum struo_found found = struo_test_stored(netlist, netlist_len, node, 6, given, 1);
    if (found == STRUO_CALLED)
        *given = struo_netlist_node(netlist, netlist_len, net, node);
    return found;
}

/* struo_netlist_record, after the tests; its answer, 1 or 0, is written to given. */
static inline enum struo_found struo_try_netlist_record(const uint32_t *netlist, size_t netlist_len, uint32_t at, uint32_t *record,
                                                        uint32_t *given)
{
    enum struo_found found = struo_test_stored(netlist, netlist_len, record, 3, given, 1);
    if (found == STRUO_CALLED)
        *given = struo_netlist_record(netlist, netlist_len, at, record);
    return found;
}

#ifdef __cplusplus
}
#endif

#endif
