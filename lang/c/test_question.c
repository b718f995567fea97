/*
 * Tests of pft_question and pft_load, in the language that C and C++ share. Every slice stands once
 * at the end and once at the start of readable memory. A tree can be read and not written, and
 * during a question the memory for programs can be neither.
 */
#define _DEFAULT_SOURCE /* mmap's MAP_ANONYMOUS */
#include "pft.h"
#include "rooms.h"

enum { COUNT_BITS = 32, LARGEST_SHORT_COUNT = 65535, DRAWN_TREES = 3000, DRAWN_DEPTH = 4 };

static struct pft_tree tree;
static uint8_t built[ROOM], loaded[ROOM], before[ROOM];

/* ---- trees */

static void type(enum pft_link link, const char *line)
{
    TEST(pft_type_refusal(pft_type_tree(&tree, link, line)) == 0);
}

static void start_kind(enum pft_link link, enum pft_kind kind)
{
    pft_start(&tree, link);
    pft_add_kind(&tree, kind);
}

/* Seven ether multicasts, an IPv6 source host, six IPv6 hosts in both and a last one, joined by and. */
static void start_far(enum pft_direction last)
{
    static const uint8_t host[16] = {0x20, 1};
    int i;

    pft_start(&tree, PFT_ETHERNET);
    for (i = 0; i < 14; i++)
        pft_add_and(&tree);
    for (i = 0; i < 7; i++)
        pft_add_kind(&tree, PFT_KIND_ETHER_MULTICAST);
    pft_add_host6(&tree, PFT_SOURCE, host);
    for (i = 0; i < 6; i++)
        pft_add_host6(&tree, PFT_BOTH, host);
    pft_add_host6(&tree, last, host);
}

/* splitmix64: the same draws on every machine. */
static unsigned draw(unsigned n)
{
    static uint64_t state;
    uint64_t z = state += 0x9e3779b97f4a7c15u;

    z = (z ^ z >> 30) * 0xbf58476d1ce4e5b9u;
    z = (z ^ z >> 27) * 0x94d049bb133111ebu;
    return (unsigned)((z ^ z >> 31) % n);
}

static void add_drawn_leaf(void)
{
    static const enum pft_protocol protocols[4] = {PFT_TCP, PFT_UDP, PFT_NO_PROTOCOL, PFT_ICMP};
    static const enum pft_protocol kinds[4] = {PFT_IP, PFT_TCP, PFT_UDP, PFT_IP6};
    static const enum pft_direction directions[4] = {PFT_EITHER, PFT_SOURCE, PFT_DESTINATION, PFT_BOTH};
    static const uint8_t address[16] = {10, 20, 0, 5};
    enum pft_direction direction = directions[draw(4)];

    switch (draw(12)) {
    case 0: pft_add_kind(&tree, PFT_KIND_ETHER_MULTICAST); break;
    case 1: pft_add_ether_host(&tree, direction, address); break;
    case 2: pft_add_port(&tree, direction, protocols[draw(4)], 80); break;
    case 3: pft_add_host6(&tree, direction, address); break;
    case 4: pft_add_net(&tree, direction, address, draw(33)); break;
    case 5: pft_add_kind(&tree, PFT_KIND_IP_MULTICAST); break;
    case 6:
    case 7: pft_add_host(&tree, direction, address); break;
    case 8:
    case 9: pft_add_ports(&tree, direction, PFT_TCP, 80, 90); break;
    default: pft_add_protocol(&tree, kinds[draw(4)]); break;
    }
}

static void add_drawn(int depth)
{
    unsigned join = depth == 0 ? 3 : draw(4);

    if (join == 3) {
        add_drawn_leaf();
        return;
    }
    pft_add_kind(&tree, join == 0 ? PFT_KIND_AND : join == 1 ? PFT_KIND_OR : PFT_KIND_NOT);
    add_drawn(depth - 1);
    if (join != 2)
        add_drawn(depth - 1);
}

/* ---- calls at both ends */

static void protect(int room, int rights)
{
    TEST(mprotect(rooms[room], ROOM, rights) == 0);
}

/* The tree at an end of its room, where it can be read alone. */
static const uint8_t *put_tree(int end)
{
    uint8_t *place = lend(TREE, tree.length, end);

    protect(TREE, PROT_READ | PROT_WRITE);
    memcpy(place, tree.bytes, tree.length);
    protect(TREE, PROT_READ);
    return place;
}

static uint32_t ask(void)
{
    uint32_t answers[2];
    int end;

    for (end = 0; end < 2; end++) {
        const uint8_t *place = put_tree(end);

        protect(PROGRAM, PROT_NONE);
        answers[end] = pft_question(place, tree.length);
        protect(PROGRAM, PROT_READ | PROT_WRITE);
    }
    TEST(answers[0] == answers[1]);
    return answers[0];
}

/* The answer of a load into so many bytes, which are then in `loaded`; those around them stay. */
static uint32_t load(uint32_t count, size_t length)
{
    uint32_t answers[2];
    int end;

    for (end = 0; end < 2; end++) {
        const uint8_t *place = put_tree(end);
        uint8_t *program = lend(PROGRAM, length, end);

        memset(rooms[PROGRAM], AROUND, ROOM);
        memset(program, STALE, length);
        answers[end] = pft_load(place, tree.length, count, program, length);
        TEST(untouched_around(PROGRAM, program, length));
        memcpy(loaded, program, length);
    }
    TEST(answers[0] == answers[1]);
    return answers[0];
}

static uint32_t build(size_t length)
{
    memset(built, STALE, sizeof built);
    return pft_build(tree.bytes, tree.length, built, length);
}

/* A load of a count into so many bytes is refused with a number and leaves zeros. */
static void refuses(uint32_t count, size_t length, unsigned number)
{
    uint32_t answer = load(count, length);

    TEST(answer == (uint32_t)number << 16);
    TEST(pft_build_refusal(answer) == number && pft_build_count(answer) == 0 && pft_build_bytes(answer) == 0);
    TEST(all_are(loaded, length, 0));
}

/* ---- trees that have a program */

/* A load of the tree's count is a build: in answer and bytes, for buffers of every kind of length. */
static void loads_as_built(void)
{
    uint32_t count = ask();
    size_t bytes = pft_build_bytes(count), i;
    size_t lengths[7];

    lengths[0] = 0, lengths[1] = 1, lengths[2] = bytes - 1;
    lengths[3] = bytes, lengths[4] = bytes + 1, lengths[5] = PFT_PROGRAM_MAX, lengths[6] = ROOM;
    for (i = 0; i < 7; i++) {
        uint32_t answer = build(lengths[i]);

        TEST(answer == (lengths[i] < bytes ? (uint32_t)PFT_SHORT_BUFFER << 16 : count));
        TEST(load(count, lengths[i]) == answer);
        TEST(memcmp(loaded, built, lengths[i]) == 0);
    }
}

/* A load of a count that is not the tree's, into no byte, too few, just enough and more. */
static void moved(uint32_t count, size_t bytes)
{
    refuses(count, 0, PFT_COUNT_MOVED);
    refuses(count, bytes - 1, PFT_COUNT_MOVED);
    refuses(count, bytes, PFT_COUNT_MOVED);
    refuses(count, PFT_PROGRAM_MAX, PFT_COUNT_MOVED);
}

/* Other counts: near ones, none, and those that are the tree's in some of their bits. */
static void other_counts(void)
{
    uint32_t count = ask();
    size_t bytes = pft_build_bytes(count);
    unsigned bit;

    moved(0, bytes);
    moved(count - 1, bytes);
    moved(count + 1, bytes);
    moved(count + 65536, bytes);
    moved(count << 16, bytes);
    moved(count | 0x80000000u, bytes);
    moved(0xffffffffu, bytes);
    moved(0u - count, bytes);
    moved((uint32_t)bytes, bytes);
    for (bit = 0; bit < COUNT_BITS; bit++)
        refuses(count ^ (uint32_t)1 << bit, bytes, PFT_COUNT_MOVED);
}

static void accepted(void)
{
    static const char *const lines[] = {"ip", "not ip", "tcp and tcp dst port 80", "port 53", "tcp or udp or icmp",
                                        "not ( src host 10.20.0.5 or dst port 502 )"};
    static const enum pft_link links[3] = {PFT_ETHERNET, PFT_RAW_IP, PFT_LINUX_SLL};
    unsigned i, j;

    for (i = 0; i < 3; i++)
        for (j = 0; j < sizeof lines / sizeof *lines; j++) {
            type(links[i], lines[j]);
            loads_as_built();
            other_counts();
        }
    start_far(PFT_BOTH);
    TEST(ask() == 258);
    loads_as_built();
    other_counts();
}

static void answers(void)
{
    type(PFT_ETHERNET, "ip");
    TEST(ask() == 4 && pft_build_refusal(4) == 0 && pft_build_count(4) == 4 && pft_build_bytes(4) == 32);
    type(PFT_RAW_IP, "ip");
    TEST(ask() == 2 && pft_build_bytes(PFT_COUNT_MAX) == PFT_PROGRAM_MAX);
    TEST(PFT_COUNT_MOVED == 19 && strcmp(pft_refusal_word(19), "count moved") == 0);
}

/* Every count of 16 bits: the tree's alone is loaded. */
static void all_counts(void)
{
    uint8_t program[32];
    uint32_t count;

    type(PFT_ETHERNET, "ip");
    TEST(build(sizeof program) == 4);
    for (count = 0; count <= LARGEST_SHORT_COUNT; count++) {
        uint32_t answer;

        memset(program, STALE, sizeof program);
        answer = pft_load(tree.bytes, tree.length, count, program, sizeof program);
        TEST(answer == (count == 4 ? 4 : (uint32_t)PFT_COUNT_MOVED << 16));
        TEST(count == 4 ? memcmp(program, built, sizeof program) == 0 : all_are(program, sizeof program, 0));
    }
}

/* ---- trees that have none */

/* A refusal of the tree's own comes first, whatever the count and the buffer are. */
static void refused(unsigned number)
{
    static const size_t lengths[4] = {0, 7, 32, PFT_PROGRAM_MAX};
    uint32_t answer = ask(), counts[6];
    int i, j;

    TEST(answer == (uint32_t)number << 16 && answer == build(PFT_PROGRAM_MAX));
    counts[0] = 0, counts[1] = 2, counts[2] = 4, counts[3] = 259, counts[4] = answer, counts[5] = 0xffffffffu;
    for (i = 0; i < 6; i++)
        for (j = 0; j < 4; j++)
            refuses(counts[i], lengths[j], number);
}

static void refused_trees(void)
{
    type(PFT_ETHERNET, "ip");
    tree.bytes[5] = 9;
    refused(PFT_STRANGE_FILE);
    pft_start(&tree, PFT_ETHERNET);
    refused(PFT_WRONG_COUNT);
    type(PFT_ETHERNET, "ip");
    tree.bytes[8] = 99;
    refused(PFT_BAD_RECORD);
    start_kind(PFT_ETHERNET, PFT_KIND_AND);
    refused(PFT_NOT_ONE_TREE);
    type(PFT_RAW_IP, "ip6");
    refused(PFT_KIND_ON_RAW);
    pft_start(&tree, PFT_ETHERNET);
    pft_add_port(&tree, PFT_EITHER, PFT_ICMP, 53);
    refused(PFT_PORT_PROTOCOL);
    start_kind(PFT_RAW_IP, PFT_KIND_ETHER_MULTICAST);
    refused(PFT_ETHER_ON_RAW);
    start_far(PFT_EITHER);
    refused(PFT_FAR_JUMP);
    start_kind(PFT_LINUX_SLL, PFT_KIND_ETHER_MULTICAST);
    refused(PFT_COOKED_ADDRESS);
}

/* ---- drawn trees */

/* A question answers what a build with enough room does, and a load of it writes the same. */
static void drawn_trees(void)
{
    static const enum pft_link links[3] = {PFT_ETHERNET, PFT_RAW_IP, PFT_LINUX_SLL};
    unsigned programs = 0, i;

    for (i = 0; i < DRAWN_TREES; i++) {
        uint32_t answer;
        unsigned own;

        pft_start(&tree, links[draw(3)]);
        add_drawn(DRAWN_DEPTH);
        answer = ask();
        TEST(answer == build(PFT_PROGRAM_MAX));
        TEST(load(answer, PFT_PROGRAM_MAX) == answer);
        TEST(memcmp(loaded, built, PFT_PROGRAM_MAX) == 0);
        own = pft_build_refusal(answer);
        refuses(answer ^ 1, 64, own == 0 ? (unsigned)PFT_COUNT_MOVED : own);
        programs += own == 0;
    }
    TEST(programs > DRAWN_TREES / 4 && programs < 3 * DRAWN_TREES / 4);
}

/* ---- trees edited between question and load */

/* The tree has another program of the same count: it is loaded as it is now. */
static void loaded_as_it_is(uint32_t count)
{
    size_t bytes = pft_build_bytes(count);

    memcpy(before, built, bytes);
    TEST(build(bytes) == count && memcmp(before, built, bytes) != 0);
    TEST(load(count, bytes) == count && memcmp(loaded, built, bytes) == 0);
}

/* Asks for a line and builds it; its count. */
static uint32_t ask_line(enum pft_link link, const char *line)
{
    uint32_t count;

    type(link, line);
    count = ask();
    TEST(build(PFT_PROGRAM_MAX) == count);
    return count;
}

static void edited_to_equal_count(void)
{
    static const char *const lines[][2] = {
        {"tcp dst port 80", "tcp dst port 81"},
        {"tcp dst port 80", "udp src port 80"},
        {"tcp", "icmp"},
        {"ip", "arp"},
        {"host 10.20.0.5", "host 10.20.0.6"},
        {"arp and not tcp", "tcp and not arp"},
    };
    unsigned i;

    for (i = 0; i < sizeof lines / sizeof *lines; i++) {
        uint32_t count = ask_line(PFT_ETHERNET, lines[i][0]);

        type(PFT_ETHERNET, lines[i][1]);
        loaded_as_it_is(count);
        count = ask_line(PFT_ETHERNET, lines[i][0]);
        type(PFT_LINUX_SLL, lines[i][0]);
        loaded_as_it_is(count);
    }
}

static void edited_to_other_count(void)
{
    uint32_t count = ask_line(PFT_ETHERNET, "tcp dst port 80");
    size_t bytes = pft_build_bytes(count);

    type(PFT_ETHERNET, "tcp port 80"); /* more */
    TEST(ask() > count);
    moved(count, bytes);
    type(PFT_ETHERNET, "tcp"); /* fewer, for which the buffer is large enough */
    TEST(ask() < count);
    moved(count, bytes);
    type(PFT_RAW_IP, "tcp dst port 80"); /* another link */
    moved(count, bytes);
    type(PFT_ETHERNET, "tcp dst port 80"); /* back */
    TEST(load(count, bytes) == count && memcmp(loaded, built, bytes) == 0);
}

static void edited_to_refused(void)
{
    uint32_t count = ask_line(PFT_RAW_IP, "tcp");

    type(PFT_RAW_IP, "ip6");
    refuses(count, PFT_PROGRAM_MAX, PFT_KIND_ON_RAW);
    tree.bytes[0] = 'Q';
    refuses(count, PFT_PROGRAM_MAX, PFT_STRANGE_FILE);
    start_far(PFT_BOTH);
    count = ask();
    start_far(PFT_EITHER);
    refuses(count, PFT_PROGRAM_MAX, PFT_FAR_JUMP);
}

/* A question was refused and its answer is taken for a count: no tree has it. */
static void refused_answer_as_count(void)
{
    uint32_t answer;

    type(PFT_RAW_IP, "ip6");
    answer = ask();
    refuses(answer, PFT_PROGRAM_MAX, PFT_KIND_ON_RAW);
    type(PFT_RAW_IP, "ip");
    refuses(answer, PFT_PROGRAM_MAX, PFT_COUNT_MOVED);
}

/* 8 and 15, then 19, then 9: each tree and buffer has the faults that come later too. */
static void in_order(void)
{
    start_far(PFT_EITHER);
    refuses(0, 8, PFT_FAR_JUMP);
    start_kind(PFT_LINUX_SLL, PFT_KIND_ETHER_MULTICAST);
    refuses(0, 8, PFT_COOKED_ADDRESS);
    type(PFT_ETHERNET, "ip");
    refuses(5, 8, PFT_COUNT_MOVED);
    refuses(1, 8, PFT_COUNT_MOVED);
    refuses(4, 8, PFT_SHORT_BUFFER);
    refuses(4, 31, PFT_SHORT_BUFFER);
    TEST(load(4, 32) == 4);
}

int main(void)
{
    make_rooms();
    answers();
    accepted();
    all_counts();
    refused_trees();
    drawn_trees();
    edited_to_equal_count();
    edited_to_other_count();
    edited_to_refused();
    refused_answer_as_count();
    in_order();
    printf("%u tests passed\n", tests);
    return 0;
}
