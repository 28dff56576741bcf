/* Tests the checked forms of struo.h: each wrong pointer or length is found before a call, and nothing is written; the answers 2 and 5,
 * which lower.c never meets; and what the netlist calls answer beyond a netlist's end. Prints what fails; ends with 0 if nothing does. */
#include <stdio.h>
#include <string.h>
#include "struo.h"

enum { NETS = 1, LIST = 0, NETLIST = 22, SCRATCH = 68, ROOM = 128 };

static int failures;

static void expect(const char *what, uint32_t got, uint32_t wanted)
{
    if (got != wanted) {
        printf("%s: %u and not %u\n", what, got, wanted);
        failures++;
    }
}

/* The image without records: its header alone. */
static const uint8_t empty[64] = {2, 0, 0, 0, 64, 0, 0, 0, 0, 0, 0, 0, 64, 0, 0, 0, 0, 0, 0, 0, 64, 0, 0, 0, 0, 0, 0, 0, 64, 0, 0, 0,
                                  0, 0, 0, 0, 64, 0, 0, 0, 0, 0, 0, 0, 64, 0, 0, 0, 0, 0, 0, 0, 64, 0, 0, 0, 0, 0, 0, 0, 64, 0, 0, 0};

/* y = BitNot a, a and y of one bit: corpus/listing.txt. */
static const uint8_t inverter[154] = {
    2, 0, 0, 0, 154, 0, 0, 0, 2, 0, 0, 0, 64, 0, 0, 0, 2, 0, 0, 0, 96, 0, 0, 0, 0, 0, 0, 0, 136, 0, 0, 0,
    1, 0, 0, 0, 136, 0, 0, 0, 0, 0, 0, 0, 152, 0, 0, 0, 0, 0, 0, 0, 152, 0, 0, 0, 2, 0, 0, 0, 152, 0, 0, 0,
    0, 0, 0, 0, 1, 0, 0, 0, 1, 0, 0, 0, 1, 0, 0, 0, 1, 0, 0, 0, 1, 0, 0, 0, 1, 0, 0, 0, 2, 0, 0, 0,
    0, 0, 0, 0, 1, 0, 0, 0, 0, 0, 0, 0, 0, 0, 0, 0, 0, 0, 0, 0, 2, 0, 0, 0, 1, 0, 0, 0, 0, 0, 0, 0,
    0, 0, 0, 0, 0, 0, 0, 0, 1, 0, 0, 0, 0, 0, 0, 0, 1, 0, 0, 0, 1, 0, 0, 0, 'a', 'y'};

/* What it needs with 3 nets. */
enum { INVERTER_SCRATCH = STRUO_SCRATCH_WORDS(2, 2, 2, 3) };

static uint32_t netlist[ROOM], scratch[ROOM], answer[ROOM];

static void fill(void)
{
    memset(netlist, 0xa5, sizeof netlist);
    memset(scratch, 0xa5, sizeof scratch);
    memset(answer, 0xa5, sizeof answer);
}

static int is_filled(void)
{
    for (size_t i = 0; i < ROOM; i++)
        if (netlist[i] != 0xa5a5a5a5 || scratch[i] != 0xa5a5a5a5 || answer[i] != 0xa5a5a5a5)
            return 0;
    return 1;
}

/* A pointer so many bytes beyond. */
static uint32_t *beyond(uint32_t *words, size_t bytes)
{
    return (uint32_t *)(void *)((char *)words + bytes);
}

static void check_is_stopped(const char *what, const uint8_t *image, size_t length, uint32_t *into, enum struo_found wanted)
{
    fill();
    expect(what, struo_try_check(image, length, NETS, LIST, NETLIST, SCRATCH, into), wanted);
    expect("nothing is written", is_filled(), 1);
}

static void lower_is_stopped(const char *what, const uint8_t *image, size_t image_len, uint32_t *net, size_t net_len, uint32_t *scr,
                             size_t scr_len, uint32_t *into, enum struo_found wanted)
{
    fill();
    expect(what, struo_try_lower(image, image_len, NETS, LIST, net, net_len, scr, scr_len, into), wanted);
    expect("nothing is written", is_filled(), 1);
}

static void wrong_checks(void)
{
    const uint8_t *inside = (const uint8_t *)answer + 11;
    check_is_stopped("check, no image", NULL, 0, answer, STRUO_NULL);
    check_is_stopped("check, no answer", empty, 64, NULL, STRUO_NULL);
    check_is_stopped("check, answer not aligned", empty, 64, beyond(answer, 2), STRUO_UNALIGNED);
    check_is_stopped("check, image of 2^63", empty, (size_t)1 << 63, answer, STRUO_TOO_LONG);
    check_is_stopped("check, image past the addresses", (const uint8_t *)UINTPTR_MAX - 7, 9, answer, STRUO_TOO_LONG);
    check_is_stopped("check, answer in the image", inside, 1, answer, STRUO_OVERLAP);
}

static void wrong_lowerings(void)
{
    const size_t long_words = (size_t)1 << 61;
    lower_is_stopped("no image", NULL, 0, netlist, NETLIST, scratch, SCRATCH, answer, STRUO_NULL);
    lower_is_stopped("no netlist", empty, 64, NULL, 0, scratch, SCRATCH, answer, STRUO_NULL);
    lower_is_stopped("no scratch", empty, 64, netlist, NETLIST, NULL, 0, answer, STRUO_NULL);
    lower_is_stopped("no answer", empty, 64, netlist, NETLIST, scratch, SCRATCH, NULL, STRUO_NULL);
    lower_is_stopped("netlist not aligned", empty, 64, beyond(netlist, 1), NETLIST, scratch, SCRATCH, answer, STRUO_UNALIGNED);
    lower_is_stopped("scratch not aligned", empty, 64, netlist, NETLIST, beyond(scratch, 2), SCRATCH, answer, STRUO_UNALIGNED);
    lower_is_stopped("answer not aligned", empty, 64, netlist, NETLIST, scratch, SCRATCH, beyond(answer, 3), STRUO_UNALIGNED);
    lower_is_stopped("image too long", empty, (size_t)1 << 63, netlist, NETLIST, scratch, SCRATCH, answer, STRUO_TOO_LONG);
    lower_is_stopped("netlist too long", empty, 64, netlist, long_words, scratch, SCRATCH, answer, STRUO_TOO_LONG);
    lower_is_stopped("scratch too long", empty, 64, netlist, NETLIST, scratch, SIZE_MAX, answer, STRUO_TOO_LONG);
    lower_is_stopped("netlist is scratch", empty, 64, netlist, NETLIST, netlist, SCRATCH, answer, STRUO_OVERLAP);
    lower_is_stopped("scratch begins in netlist", empty, 64, netlist, NETLIST, netlist + 21, SCRATCH, answer, STRUO_OVERLAP);
    lower_is_stopped("netlist begins in scratch", empty, 64, scratch + 67, NETLIST, scratch, SCRATCH, answer, STRUO_OVERLAP);
    lower_is_stopped("answer in netlist", empty, 64, netlist, NETLIST, scratch, SCRATCH, netlist + 21, STRUO_OVERLAP);
    lower_is_stopped("answer in scratch", empty, 64, netlist, NETLIST, scratch, SCRATCH, scratch, STRUO_OVERLAP);
    lower_is_stopped("image in netlist", (const uint8_t *)netlist + 87, 64, netlist, NETLIST, scratch, SCRATCH, answer, STRUO_OVERLAP);
    lower_is_stopped("image in scratch", (const uint8_t *)scratch, 1, netlist, NETLIST, scratch, SCRATCH, answer, STRUO_OVERLAP);
}

/* A call with these lengths, and its answer's number. */
static void lowered(const char *what, size_t net_len, size_t scr_len, uint32_t wanted)
{
    fill();
    expect(what, struo_try_lower(empty, 64, NETS, LIST, netlist, net_len, scratch, scr_len, answer), STRUO_CALLED);
    expect(what, answer[0], wanted);
    expect("first place", answer[1], 0);
    expect("second place", answer[2], 0);
    expect("word beyond the answer", answer[3], 0xa5a5a5a5);
}

/* What each answer leaves in the buffers. */
static void right_calls(void)
{
    lowered("netlist one short", NETLIST - 1, SCRATCH, STRUO_NETLIST_SHORT);
    expect("netlist is untouched", netlist[0], 0xa5a5a5a5);
    lowered("scratch one short", NETLIST, SCRATCH - 1, STRUO_SCRATCH_SHORT);
    expect("netlist is untouched", netlist[0], 0xa5a5a5a5);
    expect("scratch is untouched", scratch[0], 0xa5a5a5a5);
    lowered("no words at all", 0, 0, STRUO_NETLIST_SHORT);
    lowered("exact buffers", NETLIST, SCRATCH, STRUO_ACCEPTED);
    expect("edition", netlist[STRUO_EDITION], 1);
    expect("nets", netlist[STRUO_NETS], 0);
    expect("an unused word", netlist[NETLIST - 1], 0);
    expect("scratch's last word", scratch[SCRATCH - 1], 0);
    lowered("longer buffers", ROOM, ROOM, STRUO_ACCEPTED);
    expect("netlist word beyond", netlist[NETLIST], 0xa5a5a5a5);
    expect("scratch word beyond", scratch[SCRATCH], 0xa5a5a5a5);
    fill();
    expect("check", struo_try_check(empty, 64, NETS, LIST, NETLIST, SCRATCH - 1, answer), STRUO_CALLED);
    expect("check, scratch one short", answer[0], STRUO_SCRATCH_SHORT);
    expect("check", struo_try_check(empty, 0, NETS, LIST, SIZE_MAX, SIZE_MAX, answer), STRUO_CALLED);
    expect("check, no bytes", answer[0], STRUO_FIELD);
}

/* The inverter with a scratch of so many words, and its answer's number. */
static void inverted(const char *what, size_t scr_len, uint32_t wanted)
{
    const size_t net_len = STRUO_NETLIST_WORDS(3, 8);
    fill();
    expect(what, struo_try_lower(inverter, sizeof inverter, 3, 8, netlist, net_len, scratch, scr_len, answer), STRUO_CALLED);
    const uint32_t word = wanted == STRUO_ACCEPTED ? 0 : 0xa5a5a5a5;
    expect(what, answer[0], wanted);
    expect("inverter, scratch's first word", scratch[0], word);
    expect("inverter, scratch's last word but one", scratch[INVERTER_SCRATCH - 2], word);
    expect("inverter, scratch's last word", scratch[INVERTER_SCRATCH - 1], word);
    expect("inverter, scratch word beyond", scratch[INVERTER_SCRATCH], 0xa5a5a5a5);
    expect("inverter, netlist's first word", netlist[0], wanted == STRUO_ACCEPTED ? 1 : 0xa5a5a5a5);
}

static void netlist_check_is_stopped(const char *what, const uint32_t *net, size_t net_len, uint32_t *into, enum struo_found wanted)
{
    fill();
    expect(what, struo_try_netlist_check(net, net_len, into), wanted);
    expect("nothing is written", is_filled(), 1);
}

/* The forms that give a node or a record, both with these pointers. */
static void part_is_stopped(const char *what, const uint32_t *net, size_t net_len, uint32_t *part, uint32_t *given, enum struo_found wanted)
{
    fill();
    expect(what, struo_try_netlist_node(net, net_len, 0, part, given), wanted);
    expect(what, struo_try_netlist_record(net, net_len, 0, part, given), wanted);
    expect("nothing is written", is_filled(), 1);
}

static void wrong_netlist_calls(void)
{
    const size_t long_words = (size_t)1 << 61;
    uint32_t *given = scratch;
    netlist_check_is_stopped("netlist check, no netlist", NULL, 0, answer, STRUO_NULL);
    netlist_check_is_stopped("netlist check, no answer", netlist, ROOM, NULL, STRUO_NULL);
    netlist_check_is_stopped("netlist check, netlist not aligned", beyond(netlist, 1), 16, answer, STRUO_UNALIGNED);
    netlist_check_is_stopped("netlist check, answer not aligned", netlist, ROOM, beyond(answer, 2), STRUO_UNALIGNED);
    netlist_check_is_stopped("netlist check, too long", netlist, long_words, answer, STRUO_TOO_LONG);
    netlist_check_is_stopped("netlist check, answer in netlist", netlist, ROOM, netlist + ROOM - 1, STRUO_OVERLAP);
    part_is_stopped("no netlist", NULL, 0, answer, given, STRUO_NULL);
    part_is_stopped("no part", netlist, ROOM, NULL, given, STRUO_NULL);
    part_is_stopped("nothing to be given", netlist, ROOM, answer, NULL, STRUO_NULL);
    part_is_stopped("netlist not aligned", beyond(netlist, 2), 16, answer, given, STRUO_UNALIGNED);
    part_is_stopped("part not aligned", netlist, ROOM, beyond(answer, 1), given, STRUO_UNALIGNED);
    part_is_stopped("given not aligned", netlist, ROOM, answer, beyond(given, 3), STRUO_UNALIGNED);
    part_is_stopped("netlist too long", netlist, SIZE_MAX, answer, given, STRUO_TOO_LONG);
    part_is_stopped("part in netlist", netlist, ROOM, netlist + ROOM - 1, given, STRUO_OVERLAP);
    part_is_stopped("given in netlist", netlist, ROOM, answer, netlist, STRUO_OVERLAP);
    part_is_stopped("given in part", netlist, ROOM, answer, answer + 2, STRUO_OVERLAP);
}

/* Net `net` of a slice of `length` words: whether it is given, its kind and its last word. */
static void node_is(const char *what, size_t length, uint32_t net, uint32_t wanted, uint32_t kind, uint32_t last)
{
    uint32_t node[7], given = 9;
    memset(node, 0xa5, sizeof node);
    expect(what, struo_try_netlist_node(netlist, length, net, node, &given), STRUO_CALLED);
    expect(what, given, wanted);
    expect(what, node[0], kind);
    expect(what, node[5], last);
    expect("word beyond the node", node[6], 0xa5a5a5a5);
}

/* The record at list word `at` of a slice of `length` words: whether it is given, its sort, its length and where the next begins. */
static void record_is(const char *what, size_t length, uint32_t at, uint32_t wanted, uint32_t sort, uint32_t words, uint32_t next)
{
    uint32_t record[4], given = 9;
    memset(record, 0xa5, sizeof record);
    expect(what, struo_try_netlist_record(netlist, length, at, record, &given), STRUO_CALLED);
    expect(what, given, wanted);
    expect(what, record[0], sort);
    expect(what, record[1], words);
    expect(what, record[2], next);
    expect("word beyond the record", record[3], 0xa5a5a5a5);
}

static void checked(const char *what, size_t length, uint32_t number, uint32_t place)
{
    memset(answer, 0xa5, sizeof answer);
    expect(what, struo_try_netlist_check(netlist, length, answer), STRUO_CALLED);
    expect(what, answer[0], number);
    expect(what, answer[1], place);
    expect(what, answer[2], 0);
    expect("word beyond the answer", answer[3], 0xa5a5a5a5);
}

/* The inverter's netlist as it was lowered, cut, and with a word changed. */
static void right_netlist_calls(void)
{
    const size_t length = STRUO_NETLIST_WORDS(3, 8);
    inverted("inverter to be stored", INVERTER_SCRATCH, STRUO_ACCEPTED);
    checked("stored", length, STRUO_ACCEPTED, 0);
    checked("stored, longer", ROOM, STRUO_ACCEPTED, 0);
    checked("stored, cut", length - 1, STRUO_NETLIST_WORD, (uint32_t)length - 1);
    checked("no words", 0, STRUO_NETLIST_WORD, 0);
    node_is("first node", length, 0, 1, STRUO_INPUT, STRUO_ABSENT);
    node_is("last node", length, 2, 1, STRUO_OUTPUT, STRUO_ABSENT);
    node_is("node beyond", length, 3, 0, 0, 0);
    node_is("last net", length, STRUO_ABSENT, 0, 0, 0);
    node_is("node that is cut", 33, 2, 1, STRUO_OUTPUT, 0);
    node_is("node of no words", 0, 0, 0, 0, 0);
    record_is("first record", length, 0, 1, STRUO_PORT_RECORD, 4, 4);
    record_is("last record", length, 4, 1, STRUO_PORT_RECORD, 4, 8);
    record_is("record beyond", length, 8, 0, 0, 0, 0);
    record_is("last list word", length, STRUO_ABSENT, 0, 0, 0, 0);
    record_is("record that is cut", length - 1, 4, 0, 0, 0, 0);
    record_is("record of no words", 0, 0, 0, 0, 0, 0);
    netlist[netlist[STRUO_LIST_AT] + 4] = 5;
    checked("sort that is not there", length, STRUO_NETLIST_WORD, netlist[STRUO_LIST_AT] + 4);
    record_is("sort that is not there", length, 4, 0, 0, 0, 0);
}

int main(void)
{
    wrong_checks();
    wrong_lowerings();
    right_calls();
    inverted("inverter, scratch one short", INVERTER_SCRATCH - 1, STRUO_SCRATCH_SHORT);
    inverted("inverter, exact scratch", INVERTER_SCRATCH, STRUO_ACCEPTED);
    inverted("inverter, longer scratch", ROOM, STRUO_ACCEPTED);
    wrong_netlist_calls();
    right_netlist_calls();
    printf("misuse: %s\n", failures == 0 ? "all found" : "FAILED");
    return failures != 0;
}
