/*
 * Tests of ether addresses on each link, in the language that C and C++ share. A cooked capture has
 * the address of a frame's sender at byte 6, its length at byte 4, and no other address.
 */
#include <string.h>

#include "pft.h"
#include "test.h"

enum { LENGTH_PLACE = 4, SENDER_PLACE = 6, SENDER_END = 12, SIX = 6, LENGTHS = 65536, FRAME = 80, STALE = 0x5a };

/* As a frame's first six bytes it has the length 6 in it. */
static const uint8_t station[6] = {2, 0, 0x5e, 0x10, 0, 6}, other[6] = {2, 0, 0x5e, 0x10, 0, 7};
static const enum pft_direction directions[4] = {PFT_EITHER, PFT_SOURCE, PFT_DESTINATION, PFT_BOTH};

static struct pft_tree tree;
static uint8_t program[PFT_PROGRAM_MAX], frame[FRAME];
static size_t count;

/* ---- calls */

/* Builds into so many bytes, which are zero behind the program: the refusal. */
static unsigned build_into(size_t length)
{
    uint32_t answer;
    size_t i, wrong = 0;

    memset(program, STALE, sizeof program);
    answer = pft_build(tree.bytes, tree.length, program, length);
    count = pft_build_count(answer);
    for (i = 8 * count; i < sizeof program; i++)
        wrong += program[i] != (i < length ? 0 : STALE);
    TEST(wrong == 0);
    return pft_build_refusal(answer);
}

static unsigned build(void)
{
    return build_into(sizeof program);
}

/* The tree of an ether host alone. */
static void start_host(enum pft_link link, enum pft_direction direction)
{
    pft_start(&tree, link);
    pft_add_ether_host(&tree, direction, station);
}

static void start_multicast(enum pft_link link)
{
    pft_start(&tree, link);
    pft_add_kind(&tree, PFT_KIND_ETHER_MULTICAST);
}

/* A cooked frame of zeros with an address and its length. */
static void make_frame(unsigned length, const uint8_t *sender)
{
    memset(frame, 0, sizeof frame);
    pft_put16(frame + LENGTH_PLACE, (uint16_t)length);
    memcpy(frame + SENDER_PLACE, sender, 6);
}

/* The frame's first bytes end with a verdict after so many steps. */
static void ends(size_t length, unsigned verdict, unsigned steps)
{
    uint32_t answer = pft_run(program, 8 * count, frame, length);

    TEST(pft_run_verdict(answer) == verdict && pft_run_steps(answer) == steps);
}

/* What the tree says of the frame without a program. */
static int holds(void)
{
    uint32_t answer = pft_direct(tree.bytes, tree.length, frame, sizeof frame);

    TEST(pft_direct_refusal(answer) == 0);
    return pft_direct_truth(answer);
}

/* ---- what is refused */

static void single_conditions(void)
{
    int i;

    for (i = 0; i < 4; i++) {
        start_host(PFT_LINUX_SLL, directions[i]);
        TEST(build() == (directions[i] == PFT_SOURCE ? 0 : PFT_COOKED_ADDRESS));
        start_host(PFT_RAW_IP, directions[i]);
        TEST(build() == PFT_ETHER_ON_RAW);
        start_host(PFT_ETHERNET, directions[i]);
        TEST(build() == 0);
    }
    start_multicast(PFT_LINUX_SLL);
    TEST(build() == PFT_COOKED_ADDRESS);
    start_multicast(PFT_RAW_IP);
    TEST(build() == PFT_ETHER_ON_RAW);
    start_multicast(PFT_ETHERNET);
    TEST(build() == 0);
    TEST(PFT_COOKED_ADDRESS == 15 && strcmp(pft_refusal_word(15), "cooked address") == 0);
}

/* An ether multicast and a port with Icmp under a join: the one that stands first is refused. */
static void before_and_after_a_port(void)
{
    static const enum pft_kind joins[2] = {PFT_KIND_AND, PFT_KIND_OR};
    int i;

    for (i = 0; i < 2; i++) {
        pft_start(&tree, PFT_LINUX_SLL);
        pft_add_kind(&tree, joins[i]);
        pft_add_kind(&tree, PFT_KIND_ETHER_MULTICAST);
        pft_add_port(&tree, PFT_EITHER, PFT_ICMP, 53);
        TEST(build() == PFT_COOKED_ADDRESS);
        pft_start(&tree, PFT_LINUX_SLL);
        pft_add_kind(&tree, joins[i]);
        pft_add_port(&tree, PFT_EITHER, PFT_ICMP, 53);
        pft_add_kind(&tree, PFT_KIND_ETHER_MULTICAST);
        TEST(build() == PFT_PORT_PROTOCOL);
    }
}

/* Twenty IPv6 hosts in both under a join with an ether destination: an or resolves their jumps before it. */
static void start_far(enum pft_kind join)
{
    static const uint8_t host[16] = {0};
    int i;

    pft_start(&tree, PFT_LINUX_SLL);
    pft_add_kind(&tree, join);
    for (i = 0; i < 19; i++)
        pft_add_and(&tree);
    for (i = 0; i < 20; i++)
        pft_add_host6(&tree, PFT_BOTH, host);
    pft_add_ether_host(&tree, PFT_DESTINATION, station);
}

/* 15 comes after 1 to 4, before 9, and before a far jump whose target is known later. */
static void in_order(void)
{
    start_far(PFT_KIND_AND);
    TEST(build() == PFT_COOKED_ADDRESS);
    start_far(PFT_KIND_OR);
    TEST(build() == PFT_FAR_JUMP);
    start_host(PFT_LINUX_SLL, PFT_BOTH);
    TEST(build_into(0) == PFT_COOKED_ADDRESS && build_into(63) == PFT_COOKED_ADDRESS);
    pft_add_protocol(&tree, PFT_IP);
    TEST(build() == PFT_NOT_ONE_TREE);
    tree.bytes[8] = 99;
    TEST(build() == PFT_BAD_RECORD);
    start_host(PFT_LINUX_SLL, PFT_SOURCE);
    TEST(build_into(63) == PFT_SHORT_BUFFER && build_into(64) == 0);
    pft_start(&tree, PFT_LINUX_SLL);
    pft_add_not(&tree);
    pft_add_ether_host(&tree, PFT_EITHER, station);
    TEST(build() == PFT_COOKED_ADDRESS);
}

/* ---- the sender's program */

static void programs(void)
{
    static const uint8_t cooked[8][8] = {
        {0x28, 0, 0, 0, 4},                      /* ldh [4] */
        {0x15, 0, 0, 5, 6},                      /* jeq #6 */
        {0x20, 0, 0, 0, 6},                      /* ld [6] */
        {0x15, 0, 0, 3, 0x10, 0x5e, 0x00, 0x02}, /* jeq #0x02005e10 */
        {0x28, 0, 0, 0, 10},                     /* ldh [10] */
        {0x15, 0, 0, 1, 6},                      /* jeq #6 */
        {6, 0, 0, 0, 255, 255, 255, 255},        /* accepted */
        {6},                                     /* dropped */
    };

    start_host(PFT_LINUX_SLL, PFT_SOURCE);
    TEST(build() == 0 && count == 8 && memcmp(program, cooked, sizeof cooked) == 0);
    start_host(PFT_ETHERNET, PFT_SOURCE);
    TEST(build() == 0 && count == 6 && memcmp(program, cooked[2], 6 * 8) == 0);
}

/* Every length of the address: 6 alone passes, and is tested first. */
static void lengths(void)
{
    unsigned length;

    start_host(PFT_LINUX_SLL, PFT_SOURCE);
    TEST(build() == 0);
    for (length = 0; length < LENGTHS; length++) {
        make_frame(length, station);
        ends(FRAME, length == SIX ? PFT_ACCEPTED : PFT_DROPPED, length == SIX ? 7 : 3);
        TEST(holds() == (length == SIX));
    }
}

/* Every bit of the frame turned: those of the length and of the address count, and no other. */
static void bits(void)
{
    size_t bit;

    start_host(PFT_LINUX_SLL, PFT_SOURCE);
    TEST(build() == 0);
    for (bit = 0; bit < 8 * FRAME; bit++) {
        int counts = bit / 8 >= LENGTH_PLACE && bit / 8 < SENDER_END;

        make_frame(SIX, station);
        frame[bit / 8] ^= (uint8_t)(1 << bit % 8);
        TEST(pft_run_verdict(pft_run(program, 8 * count, frame, FRAME)) == (counts ? PFT_DROPPED : PFT_ACCEPTED));
        TEST(holds() == !counts);
    }
}

/* Frames that end early: another length drops one that has its first six bytes. */
static void cut_frames(void)
{
    static const unsigned steps[SENDER_END] = {1, 1, 1, 1, 1, 1, 3, 3, 3, 3, 5, 5};
    size_t length;

    start_host(PFT_LINUX_SLL, PFT_SOURCE);
    TEST(build() == 0);
    make_frame(SIX, station);
    for (length = 0; length < SENDER_END; length++)
        ends(length, PFT_SHORT, steps[length]);
    ends(SENDER_END, PFT_ACCEPTED, 7);
    make_frame(8, station);
    ends(5, PFT_SHORT, 1);
    ends(6, PFT_DROPPED, 3);
}

/* ---- read directly */

/* One direction on the frame, on a link. */
static int host_holds(enum pft_link link, int direction)
{
    start_host(link, directions[direction]);
    return holds();
}

/* Four directions on the frame: either, source, destination, both. */
static int hosts_hold(enum pft_link link, int either, int source, int destination, int both)
{
    return host_holds(link, 0) == either && host_holds(link, 1) == source && host_holds(link, 2) == destination &&
           host_holds(link, 3) == both;
}

/* What a build refuses has a reading: a cooked frame is sent to no address, whatever its first bytes are. */
static void readings(void)
{
    make_frame(SIX, station);
    memcpy(frame, station, 6);
    TEST(hosts_hold(PFT_LINUX_SLL, 1, 1, 0, 0));
    TEST(hosts_hold(PFT_ETHERNET, 1, 1, 1, 1) && hosts_hold(PFT_RAW_IP, 1, 1, 1, 1));
    memcpy(frame + SENDER_PLACE, other, 6);
    TEST(hosts_hold(PFT_LINUX_SLL, 0, 0, 0, 0));
    TEST(hosts_hold(PFT_ETHERNET, 1, 0, 1, 0) && hosts_hold(PFT_RAW_IP, 1, 0, 1, 0));
    make_frame(8, station);
    TEST(hosts_hold(PFT_LINUX_SLL, 0, 0, 0, 0));
    TEST(hosts_hold(PFT_ETHERNET, 1, 1, 0, 0) && hosts_hold(PFT_RAW_IP, 1, 1, 0, 0));
}

static void multicasts(void)
{
    make_frame(SIX, station);
    frame[0] = 1;
    start_multicast(PFT_LINUX_SLL);
    TEST(!holds());
    start_multicast(PFT_ETHERNET);
    TEST(holds());
    start_multicast(PFT_RAW_IP);
    TEST(holds());
    pft_start(&tree, PFT_LINUX_SLL);
    pft_add_not(&tree);
    pft_add_kind(&tree, PFT_KIND_ETHER_MULTICAST);
    TEST(holds() && build() == PFT_COOKED_ADDRESS);
}

/* ---- joined */

/* ARP that another station sent: the tests of a sender under a not and behind an ethertype. */
static void joined(void)
{
    pft_start(&tree, PFT_LINUX_SLL);
    pft_add_and(&tree), pft_add_protocol(&tree, PFT_ARP);
    pft_add_not(&tree), pft_add_ether_host(&tree, PFT_SOURCE, station);
    TEST(build() == 0);
    make_frame(SIX, station);
    frame[14] = 0x08, frame[15] = 0x06;
    TEST(!holds());
    ends(FRAME, PFT_DROPPED, 10);
    frame[LENGTH_PLACE + 1] = 8;
    TEST(holds());
    ends(FRAME, PFT_ACCEPTED, 5);
    make_frame(SIX, other);
    TEST(!holds());
    ends(FRAME, PFT_DROPPED, 3);
}

int main(void)
{
    single_conditions();
    before_and_after_a_port();
    in_order();
    programs();
    lengths();
    bits();
    cut_frames();
    readings();
    multicasts();
    joined();
    printf("%u tests passed\n", tests);
    return 0;
}
