/*
 * A gate reserves a slot of its program memory before it loads a program:
 *
 *     slots
 *
 * Each row's tree is asked for its count, so many instructions are reserved, and the program is
 * loaded into them. Some trees are edited in between: one that keeps its count is loaded as it then
 * is; one that does not is refused, its slot is given back, and it is asked anew. Prints what comes
 * of each row, then the verdicts of those that are loaded. Ends with 0, or with 1 where the archive
 * is too old or a line cannot be typed.
 */
#include <stdio.h>
#include <string.h>

#include "pft.h"

enum { MEMORY = 32, INSTRUCTION = 8, PACKET = 64 };

/* Some instructions in a row; none where the count is 0. */
struct slot {
    size_t first, count;
};

struct row {
    const char *line, *edited; /* what is typed, and what it is edited to after the question, or NULL */
    struct slot slot;
};

static uint8_t memory[MEMORY * INSTRUCTION], taken[MEMORY];
static struct pft_tree tree;

/* ---- the program memory */

static uint8_t *bytes_of(struct slot slot)
{
    return memory + INSTRUCTION * slot.first;
}

static int is_free(struct slot slot)
{
    return memchr(taken + slot.first, 1, slot.count) == NULL;
}

/* The first free slot of so many instructions; one of none where there is no room. */
static struct slot reserve(size_t count)
{
    struct slot slot;

    slot.count = count;
    for (slot.first = 0; slot.first + count <= MEMORY; slot.first++)
        if (is_free(slot)) {
            memset(taken + slot.first, 1, count);
            return slot;
        }
    slot.count = 0;
    return slot;
}

static void give_back(struct slot *slot)
{
    memset(taken + slot->first, 0, slot->count);
    slot->count = 0;
}

/* ---- a row */

static int type(const char *line)
{
    return pft_type_refusal(pft_type_tree(&tree, PFT_RAW_IP, line)) == 0;
}

/* Somebody edits the row's tree, once. */
static void edit(struct row *row)
{
    if (row->edited == NULL)
        return;
    printf("  edited to: %s\n", row->edited);
    type(row->edited);
    row->edited = NULL;
}

static void print_refusal(unsigned refusal)
{
    printf("  refused %u, %s\n", refusal, pft_refusal_word(refusal));
}

/* Reserves the slot of a row by what its question answered; 0 where there is none. */
static int reserve_row(struct row *row, uint32_t asked)
{
    if (pft_build_refusal(asked) != 0) {
        print_refusal(pft_build_refusal(asked));
        return 0;
    }
    row->slot = reserve(pft_build_count(asked));
    printf("  %zu instructions: ", pft_build_count(asked));
    if (row->slot.count == 0)
        puts("no slot is free");
    else
        printf("slot %zu to %zu\n", row->slot.first, row->slot.first + row->slot.count - 1);
    return row->slot.count != 0;
}

/* Loads the tree into the row's slot, or gives the slot back; the refusal. */
static unsigned load_row(struct row *row, uint32_t asked)
{
    uint32_t answer = pft_load(tree.bytes, tree.length, asked, bytes_of(row->slot), pft_build_bytes(asked));
    unsigned refusal = pft_build_refusal(answer);

    if (refusal == 0) {
        puts("  loaded");
    } else {
        print_refusal(refusal);
        give_back(&row->slot);
    }
    return refusal;
}

/* Asks, reserves and loads, and does so again where the count has moved in between. */
static void fill(struct row *row)
{
    unsigned refusal;

    do {
        uint32_t asked = pft_question(tree.bytes, tree.length);

        if (!reserve_row(row, asked))
            return;
        edit(row);
        refusal = load_row(row, asked);
    } while (refusal == PFT_COUNT_MOVED);
}

/* ---- packets */

/* An IPv4 packet to a port. */
static void make_packet(uint8_t packet[PACKET], uint8_t protocol, uint16_t port)
{
    memset(packet, 0, PACKET);
    packet[0] = 0x45; /* IPv4, a header of 20 bytes */
    packet[9] = protocol;
    pft_put16(packet + 22, port);
}

/* The verdict on a packet of each row that is loaded. */
static void judge(const struct row *rows, size_t count, const char *what, uint8_t protocol, uint16_t port)
{
    uint8_t packet[PACKET];
    size_t i;

    make_packet(packet, protocol, port);
    printf("%s %u\n", what, port);
    for (i = 0; i < count; i++)
        if (rows[i].slot.count != 0) {
            size_t length = INSTRUCTION * rows[i].slot.count;
            uint32_t answer = pft_run(bytes_of(rows[i].slot), length, packet, PACKET);

            printf("  row %zu: %s\n", i, pft_verdict_word(pft_run_verdict(answer)));
        }
}

int main(void)
{
    static struct row rows[] = {
        {"tcp dst port 502", NULL, {0, 0}},
        {"tcp dst port 502", "tcp dst port 503", {0, 0}}, /* another program of equal count */
        {"udp", "udp or tcp", {0, 0}},                    /* one of another count */
        {"port 502", NULL, {0, 0}},                       /* too large for what is left */
        {"ip6", NULL, {0, 0}},                            /* refused by the question */
        {"not tcp", NULL, {0, 0}},
    };
    size_t count = sizeof rows / sizeof *rows, i;

    if (!pft_serves()) {
        fprintf(stderr, "libpft.a has version %u, at least %u is needed\n", (unsigned)pft_version(), PFT_VERSION);
        return 1;
    }
    for (i = 0; i < count; i++) {
        printf("row %zu: %s\n", i, rows[i].line);
        if (!type(rows[i].line))
            return 1;
        fill(&rows[i]);
    }
    judge(rows, count, "TCP to port", 6, 502);
    judge(rows, count, "TCP to port", 6, 503);
    judge(rows, count, "UDP to port", 17, 502);
    return 0;
}
