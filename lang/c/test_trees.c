/*
 * Tests of the functions of pft.h that write tree files, in the language that C and C++ share:
 * every record against bytes laid out by hand, and the files against what libpft.a says of them.
 */
#include <string.h>

#include "pft.h"
#include "test.h"

static struct pft_tree tree;
static uint8_t program[PFT_PROGRAM_MAX];

static const uint8_t four[4] = {10, 20, 0, 5}, odd_mask[4] = {255, 0, 255, 0};
static const uint8_t six[16] = {0x20, 1, 0xd, 0xb8, 0, 0, 0, 0, 0, 0, 0, 0, 0, 0, 0, 5};
static const uint8_t ether[6] = {2, 0, 0x5e, 0x10, 0, 1};

static unsigned build(void)
{
    return pft_build_refusal(pft_build(tree.bytes, tree.length, program, sizeof program));
}

static unsigned read_directly(void)
{
    return pft_direct_refusal(pft_direct(tree.bytes, tree.length, NULL, 0));
}

/* The tree is one record that starts with these bytes and is zero after them. */
static void is_record(const uint8_t *bytes, size_t length, int line)
{
    uint8_t file[32] = {'P', 'F', 'T', 0, 1, 1, 0, 1};

    memcpy(file + 8, bytes, length);
    test(tree.length == 32 && memcmp(tree.bytes, file, 32) == 0, "the record's bytes", line);
    test(read_directly() == 0, "passes 1 to 4", line);
}

#define RECORD(call, ...)                          \
    do {                                           \
        static const uint8_t bytes[] = {__VA_ARGS__}; \
        pft_start(&tree, PFT_ETHERNET);            \
        call;                                      \
        is_record(bytes, sizeof bytes, __LINE__);  \
    } while (0)

static void protocols(void)
{
    RECORD(pft_add_protocol(&tree, PFT_IP), 10, 0, 1);
    RECORD(pft_add_protocol(&tree, PFT_IP6), 10, 0, 2);
    RECORD(pft_add_protocol(&tree, PFT_ARP), 10, 0, 3);
    RECORD(pft_add_protocol(&tree, PFT_RARP), 10, 0, 4);
    RECORD(pft_add_protocol(&tree, PFT_TCP), 10, 0, 5);
    RECORD(pft_add_protocol(&tree, PFT_UDP), 10, 0, 6);
    RECORD(pft_add_protocol(&tree, PFT_ICMP), 10, 0, 7);
    RECORD(pft_add_protocol(&tree, PFT_ICMP6), 10, 0, 8);
    RECORD(pft_add_protocol(&tree, PFT_IGMP), 10, 0, 9);
    RECORD(pft_add_protocol(&tree, PFT_SCTP), 10, 0, 10);
    RECORD(pft_add_protocol_number(&tree, PFT_NUM, 47), 10, 0, 11, 47);
    RECORD(pft_add_protocol_number(&tree, PFT_IP6_PROTO, 58), 10, 0, 12, 58);
    RECORD(pft_add_chain(&tree, PFT_KIND_CHAIN, 6), 23, 0, 0, 6);
    RECORD(pft_add_chain(&tree, PFT_KIND_CHAIN6, 58), 24, 0, 0, 58);
}

static void addresses(void)
{
    RECORD(pft_add_host(&tree, PFT_EITHER, four), 11, 0, 0, 0, 0, 0, 0, 0, 10, 20, 0, 5);
    RECORD(pft_add_host(&tree, PFT_SOURCE, four), 11, 1, 0, 0, 0, 0, 0, 0, 10, 20, 0, 5);
    RECORD(pft_add_host6(&tree, PFT_DESTINATION, six), 12, 2, 0, 0, 0, 0, 0, 0, 0x20, 1, 0xd, 0xb8, 0, 0, 0, 0, 0, 0,
           0, 0, 0, 0, 0, 5);
    RECORD(pft_add_net(&tree, PFT_BOTH, four, 16), 13, 3, 0, 0, 0, 0, 0, 0, 10, 20, 0, 5, 255, 255, 0, 0);
    RECORD(pft_add_net(&tree, PFT_EITHER, four, 0), 13, 0, 0, 0, 0, 0, 0, 0, 10, 20, 0, 5, 0, 0, 0, 0);
    RECORD(pft_add_net(&tree, PFT_EITHER, four, 1), 13, 0, 0, 0, 0, 0, 0, 0, 10, 20, 0, 5, 128, 0, 0, 0);
    RECORD(pft_add_net(&tree, PFT_EITHER, four, 31), 13, 0, 0, 0, 0, 0, 0, 0, 10, 20, 0, 5, 255, 255, 255, 254);
    RECORD(pft_add_net(&tree, PFT_EITHER, four, 32), 13, 0, 0, 0, 0, 0, 0, 0, 10, 20, 0, 5, 255, 255, 255, 255);
    RECORD(pft_add_net(&tree, PFT_EITHER, four, 99), 13, 0, 0, 0, 0, 0, 0, 0, 10, 20, 0, 5, 255, 255, 255, 255);
    RECORD(pft_add_net_mask(&tree, PFT_SOURCE, four, odd_mask), 13, 1, 0, 0, 0, 0, 0, 0, 10, 20, 0, 5, 255, 0, 255, 0);
    RECORD(pft_add_net6(&tree, PFT_DESTINATION, six, 32), 14, 2, 0, 32, 0, 0, 0, 0, 0x20, 1, 0xd, 0xb8, 0, 0, 0, 0, 0,
           0, 0, 0, 0, 0, 0, 5);
    RECORD(pft_add_ether_host(&tree, PFT_SOURCE, ether), 17, 1, 0, 0, 0, 0, 0, 0, 2, 0, 0x5e, 0x10, 0, 1);
}

static void numbers(void)
{
    RECORD(pft_add_port(&tree, PFT_EITHER, PFT_NO_PROTOCOL, 53), 15, 0, 0, 0, 0, 53);
    RECORD(pft_add_port(&tree, PFT_DESTINATION, PFT_TCP, 0x1234), 15, 2, 5, 0, 0x12, 0x34);
    RECORD(pft_add_ports(&tree, PFT_BOTH, PFT_SCTP, 5000, 65535), 16, 3, 10, 0, 0x13, 0x88, 255, 255);
    RECORD(pft_add_ether_protocol(&tree, 0x88cc), 18, 0, 0, 0, 0x88, 0xcc);
    RECORD(pft_add_kind(&tree, PFT_KIND_ETHER_MULTICAST), 19);
    RECORD(pft_add_kind(&tree, PFT_KIND_IP_BROADCAST), 20);
    RECORD(pft_add_kind(&tree, PFT_KIND_IP_MULTICAST), 21);
    RECORD(pft_add_kind(&tree, PFT_KIND_IP6_MULTICAST), 22);
}

/* A tree in prefix order, on every link. */
static void joins(void)
{
    static const enum pft_link links[3] = {PFT_ETHERNET, PFT_RAW_IP, PFT_LINUX_SLL};
    static const uint8_t kinds[5] = {2, 1, 10, 3, 15};
    unsigned i, j;

    for (i = 0; i < 3; i++) {
        pft_start(&tree, links[i]);
        pft_add_or(&tree);
        pft_add_and(&tree);
        pft_add_protocol(&tree, PFT_TCP);
        pft_add_not(&tree);
        pft_add_port(&tree, PFT_EITHER, PFT_TCP, 80);
        TEST(read_directly() == PFT_NOT_ONE_TREE);
        pft_add_protocol(&tree, PFT_UDP);
        TEST(tree.bytes[5] == i + 1 && tree.bytes[7] == 6 && tree.length == 8 + 6 * 24);
        for (j = 0; j < 5; j++)
            TEST(tree.bytes[8 + 24 * j] == kinds[j]);
        TEST(read_directly() == 0);
    }
    pft_add_protocol(&tree, PFT_UDP);
    TEST(read_directly() == PFT_NOT_ONE_TREE);
}

/* No record, 128 of them, and more than fit: none is written past the file. */
static void counts(void)
{
    int i;

    pft_start(&tree, PFT_ETHERNET);
    TEST(tree.length == 8 && build() == PFT_WRONG_COUNT);
    for (i = 0; i < 127; i++)
        pft_add_not(&tree);
    pft_add_protocol(&tree, PFT_IP);
    TEST(tree.length == PFT_TREE_MAX && build() == 0);
    pft_add_protocol(&tree, PFT_IP);
    TEST(tree.length == PFT_TREE_MAX && build() == PFT_WRONG_COUNT);
    for (i = 0; i < 65535; i++) /* a count that starts anew would now be 128 */
        pft_add_protocol(&tree, PFT_IP);
    TEST(tree.length == PFT_TREE_MAX && build() == PFT_WRONG_COUNT);
}

/* A record that no function above makes. */
static void any_record(void)
{
    struct pft_record record = pft_record_of(PFT_KIND_PORT, PFT_SOURCE);

    record.protocol = PFT_NUM;
    record.small = 9;
    record.a = 80;
    RECORD(pft_add(&tree, record), 15, 1, 11, 9, 0, 80);
    TEST(build() == PFT_PORT_PROTOCOL);
}

int main(void)
{
    protocols();
    addresses();
    numbers();
    joins();
    counts();
    any_record();
    printf("%u tests passed\n", tests);
    return 0;
}
