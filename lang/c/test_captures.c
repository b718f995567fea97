/*
 * Tests of what pft.h and libpft.a do with captures, in the language that C and C++ share. Every
 * answer is held to a reader of its own here, with every slice once at the end and once at the
 * start of readable memory.
 */
#define _DEFAULT_SOURCE /* mmap's MAP_ANONYMOUS */
#include "pft.h"
#include "rooms.h"

enum { FILE_HEADER = 24, FRAME_HEADER = 16, LINK_PLACE = 20, CAPTURED_PLACE = 8 };
enum { BIG, LITTLE, ORDERS };
enum { LINKS = 3, MARKS = 2, MOST_FRAMES = 16 };

static const uint32_t marks[MARKS] = {0xa1b2c3d4u, 0xa1b23c4du};
static const enum pft_link links[LINKS] = {PFT_ETHERNET, PFT_RAW_IP, PFT_LINUX_SLL};
static const uint32_t link_fields[LINKS] = {1, 101, 113};
static const size_t network_starts[LINKS] = {14, 0, 16};

/* ---- captures written */

struct capture {
    uint8_t bytes[ROOM];
    size_t length;
    int order;
};

static void put(struct capture *c, uint32_t number)
{
    int i;

    for (i = 0; i < 4; i++)
        c->bytes[c->length++] = (uint8_t)(number >> 8 * (c->order == LITTLE ? i : 3 - i));
}

/* A capture without frames; the fields that are not tested have odd numbers. */
static void start(struct capture *c, int order, uint32_t mark, uint32_t link)
{
    c->length = 0;
    c->order = order;
    put(c, mark);
    put(c, 0xfeedbeefu); /* version */
    put(c, 0x80000000u); /* zone */
    put(c, 0x7fffffffu);
    put(c, 1); /* snap length */
    put(c, link);
}

/* A frame header that names a captured length; times and original length are odd. */
static void add_header(struct capture *c, uint32_t length)
{
    put(c, 0xffffffffu);
    put(c, 0xfffffffeu);
    put(c, length);
    put(c, 3);
}

static void add_frame(struct capture *c, const uint8_t *frame, size_t length)
{
    add_header(c, (uint32_t)length);
    if (length > 0)
        memcpy(c->bytes + c->length, frame, length);
    c->length += length;
}

/* ---- captures read again */

/* The frames of a capture: where their headers stand, and what ended the reading. */
struct reading {
    size_t at[MOST_FRAMES], length[MOST_FRAMES];
    size_t count, stop;
    uint32_t link;
    unsigned refusal;
};

static uint32_t get(const uint8_t *bytes, int order)
{
    uint32_t number = 0;
    int i;

    for (i = 0; i < 4; i++)
        number |= (uint32_t)bytes[i] << 8 * (order == LITTLE ? i : 3 - i);
    return number;
}

/* The byte order of a capture, or ORDERS where it is none. */
static int order_of(const uint8_t *bytes, size_t length)
{
    int order, i;

    for (order = 0; order < ORDERS && length >= FILE_HEADER; order++)
        for (i = 0; i < MARKS; i++)
            if (get(bytes, order) == marks[i])
                return order;
    return ORDERS;
}

/* The captured length of the frame at a place, or ROOM where no good one stands. */
static size_t frame_at(const uint8_t *bytes, size_t length, size_t at)
{
    size_t captured;

    if (at > length || length - at < FRAME_HEADER)
        return ROOM;
    captured = get(bytes + at + CAPTURED_PLACE, order_of(bytes, length));
    return captured <= 65535 && captured <= length - at - FRAME_HEADER ? captured : ROOM;
}

static struct reading read_again(const uint8_t *bytes, size_t length)
{
    struct reading r;

    memset(&r, 0, sizeof r);
    r.stop = FILE_HEADER;
    if (order_of(bytes, length) == ORDERS) {
        r.refusal = 12;
        return r;
    }
    r.link = get(bytes + LINK_PLACE, order_of(bytes, length));
    while (r.stop != length) {
        size_t captured = frame_at(bytes, length, r.stop);

        if (captured == ROOM) {
            r.refusal = 14;
            return r;
        }
        TEST(r.count < MOST_FRAMES);
        r.at[r.count] = r.stop;
        r.length[r.count++] = captured;
        r.stop += FRAME_HEADER + captured;
    }
    return r;
}

/* ---- calls held to that reading */

static struct pft_tree tree;
static struct capture made;
static uint8_t program[ROOM];

/* The frames that a built program accepts, one run for each. */
static uint32_t accepted_in(const struct reading *r, size_t program_length, const uint8_t *bytes)
{
    uint32_t accepted = 0;
    size_t i;

    for (i = 0; i < r->count; i++) {
        uint32_t answer = pft_run(program, program_length, bytes + r->at[i] + FRAME_HEADER, r->length[i]);

        accepted += pft_run_verdict(answer) == PFT_ACCEPTED;
    }
    return accepted;
}

/* What a count is to answer; `program` is left as it is to be left. */
static uint64_t expected(size_t program_length, const uint8_t *bytes, size_t length)
{
    uint32_t built = pft_build(tree.bytes, tree.length, program, program_length);
    struct reading r = read_again(bytes, length);

    if (pft_build_refusal(built) != 0)
        return (uint64_t)pft_build_refusal(built) << 32;
    if (r.refusal == 12)
        return (uint64_t)12 << 32;
    if (r.link != link_fields[tree.bytes[5] - 1])
        return (uint64_t)13 << 32;
    return ((uint64_t)r.refusal << 32) + accepted_in(&r, 8 * pft_build_count(built), bytes);
}

/* Counts at both ends of the rooms. */
static uint64_t count(size_t program_length)
{
    uint64_t wanted = expected(program_length, made.bytes, made.length);
    int end;

    for (end = 0; end < 2; end++) {
        uint8_t *file = lend(TREE, tree.length, end), *lent = lend(PROGRAM, program_length, end);
        uint8_t *bytes = lend(FRAME, made.length, end);

        memcpy(file, tree.bytes, tree.length);
        memcpy(bytes, made.bytes, made.length);
        memset(rooms[PROGRAM], AROUND, ROOM);
        memset(lent, STALE, program_length);
        TEST(pft_count(file, tree.length, lent, program_length, bytes, made.length) == wanted);
        TEST(memcmp(lent, program, program_length) == 0 && untouched_around(PROGRAM, lent, program_length));
        TEST(memcmp(file, tree.bytes, tree.length) == 0 && memcmp(bytes, made.bytes, made.length) == 0);
    }
    return wanted;
}

/* Walks at both ends of the room: each frame is a piece of the capture. */
static void walk(void)
{
    struct reading r = read_again(made.bytes, made.length);
    int end;

    for (end = 0; end < 2; end++) {
        const uint8_t *bytes = (const uint8_t *)memcpy(lend(FRAME, made.length, end), made.bytes, made.length);
        struct pft_frames frames = pft_frames_of(bytes, made.length);
        size_t i;

        TEST(frames.frame == NULL && frames.length == 0 && frames.refusal == 0);
        for (i = 0; i < r.count; i++) {
            TEST(pft_next(&frames) == 1 && frames.refusal == 0);
            TEST(frames.frame == bytes + r.at[i] + FRAME_HEADER && frames.length == r.length[i]);
            TEST(frames.at == r.at[i] + FRAME_HEADER + r.length[i]);
        }
        for (i = 0; i < 2; i++) {
            TEST(pft_next(&frames) == 0 && frames.refusal == r.refusal && frames.at == r.stop);
            TEST(frames.frame == NULL && frames.length == 0);
        }
    }
}

/* Counts and walks the capture; the count's refusal and accepted frames are these. */
static void counts(unsigned refusal, uint32_t accepted, int line)
{
    uint64_t answer = count(PFT_PROGRAM_MAX);

    test(pft_count_refusal(answer) == refusal, "the refusal of the count", line);
    test(pft_count_accepted(answer) == accepted, "the accepted frames", line);
    walk();
}

#define COUNTS(refusal, accepted) counts(refusal, accepted, __LINE__)

/* ---- tests */

/* A tree that accepts UDP over IPv4, on any link. */
static void make_tree(enum pft_link link)
{
    pft_start(&tree, link);
    pft_add_protocol(&tree, PFT_UDP);
}

static uint8_t frame[65536];

/* Writes an IPv4 packet of a protocol behind a link's header, and zeros. */
static void make_frame(int link, uint8_t protocol)
{
    uint8_t *packet = frame + network_starts[link];

    memset(frame, 0, sizeof frame);
    if (link != 1)
        packet[-2] = 0x08; /* ethertype 0x0800 */
    packet[0] = 0x45;
    packet[9] = protocol;
}

/* Seven frames, three of them accepted: one of 100 bytes, the shortest and one after an empty one. */
static void make_capture(int link, int order, uint32_t mark)
{
    size_t shortest = network_starts[link] + 10;

    start(&made, order, mark, link_fields[link]);
    make_frame(link, 17);
    add_frame(&made, frame, 100);
    add_frame(&made, frame, shortest);
    add_frame(&made, frame, shortest - 1);
    add_frame(&made, NULL, 0);
    add_frame(&made, frame, 60);
    make_frame(link, 6);
    add_frame(&made, frame, 60);
    add_frame(&made, NULL, 0);
    make_tree(links[link]);
}

/* A capture with the trees of all links. */
static void with_every_tree(int link)
{
    int other;

    for (other = 0; other < LINKS; other++) {
        make_tree(links[other]);
        if (other == link)
            COUNTS(0, 3);
        else
            COUNTS(PFT_OTHER_LINK, 0);
    }
}

/* Every link, byte order and mark. */
static void good_captures(void)
{
    int link, order, mark;

    for (link = 0; link < LINKS; link++)
        for (order = 0; order < ORDERS; order++)
            for (mark = 0; mark < MARKS; mark++) {
                make_capture(link, order, marks[mark]);
                with_every_tree(link);
            }
}

/* The same capture cut after each of its bytes. */
static void cut_captures(int order)
{
    static const uint32_t accepted[8] = {0, 1, 2, 2, 2, 3, 3, 3}; /* by the frames that are whole */
    struct reading all;
    size_t length, whole = 0;

    make_capture(0, order, marks[order]);
    all = read_again(made.bytes, made.length);
    TEST(all.count == 7 && all.stop == made.length);
    for (length = 0; length < all.stop; length++) {
        made.length = length;
        if (length > FILE_HEADER && length == all.at[whole] + FRAME_HEADER + all.length[whole])
            whole++;
        if (length < FILE_HEADER)
            COUNTS(PFT_NO_CAPTURE, 0);
        else
            COUNTS(length == all.at[whole] ? 0 : PFT_CUT_FRAME, accepted[whole]);
    }
}

/* Every bit of the file header: mark and link are tested, the other fields are not. */
static void header_bits(void)
{
    int order, bit;

    for (order = 0; order < ORDERS; order++)
        for (bit = 0; bit < 8 * FILE_HEADER; bit++) {
            make_capture(1, order, marks[order]);
            made.bytes[bit / 8] ^= (uint8_t)(1 << bit % 8);
            if (bit < 8 * 4)
                COUNTS(PFT_NO_CAPTURE, 0);
            else if (bit < 8 * LINK_PLACE)
                COUNTS(0, 3);
            else
                COUNTS(PFT_OTHER_LINK, 0);
        }
}

/* Marks of other files, among them those of pcapng and of a changed pcap, and halves exchanged. */
static void other_marks(void)
{
    static const uint32_t others[] = {0,           0x0a0d0d0au, 0xa1b2cd34u, 0xa1b2c3d5u, 0xa1b2c34du,
                                      0xa1b23cd4u, 0xb2a1d4c3u, 0xc3d4a1b2u, 0xffffffffu};
    int order;
    size_t i;

    for (order = 0; order < ORDERS; order++)
        for (i = 0; i < sizeof others / sizeof others[0]; i++) {
            make_capture(0, order, others[i]);
            COUNTS(PFT_NO_CAPTURE, 0);
        }
}

/* Links of other files: raw IP's other numbers, the trees' own, with a check sequence's length, swapped. */
static void other_links(int link)
{
    static const uint32_t others[] = {0,   2,   3,   12,          14,          100,         102,        112,
                                      114, 276, 228, 0x30000001u, 0x30000065u, 0x65000000u, 0x71000000u, 0xffffffffu};
    int order;
    size_t i;

    for (order = 0; order < ORDERS; order++)
        for (i = 0; i < sizeof others / sizeof others[0]; i++) {
            make_capture(link, order, marks[0]);
            made.length = LINK_PLACE;
            put(&made, others[i]);
            COUNTS(PFT_OTHER_LINK, 0);
        }
}

/* The fields that are not tested, all of them zero. */
static void zero_fields(void)
{
    int order;

    for (order = 0; order < ORDERS; order++) {
        make_capture(0, order, marks[0]);
        memset(made.bytes + 4, 0, LINK_PLACE - 4);
        memset(made.bytes + FILE_HEADER, 0, CAPTURED_PLACE);
        memset(made.bytes + FILE_HEADER + CAPTURED_PLACE + 4, 0, 4);
        COUNTS(0, 3);
    }
}

/* Every bit of a frame header: of its fields the captured length alone is read. */
static void frame_header_bits(void)
{
    int order, bit;

    for (order = 0; order < ORDERS; order++)
        for (bit = 0; bit < 8 * FRAME_HEADER; bit++) {
            make_capture(2, order, marks[order]);
            made.bytes[FILE_HEADER + bit / 8] ^= (uint8_t)(1 << bit % 8);
            if (bit / 8 < CAPTURED_PLACE || bit / 8 >= CAPTURED_PLACE + 4)
                COUNTS(0, 3);
            else {
                count(PFT_PROGRAM_MAX);
                walk();
            }
        }
}

/* The longest frame, and captured lengths that are too large, with the bytes there and without. */
static void long_frames(void)
{
    static const uint32_t too_large[] = {65535, 65536, 65537, 0x10000 + 60, 0x7fffffff, 0x80000000u, 0xffffffffu};
    int order;
    size_t i;

    for (order = 0; order < ORDERS; order++) {
        make_tree(PFT_ETHERNET);
        make_frame(0, 17);
        start(&made, order, marks[0], 1);
        add_frame(&made, frame, 65535);
        COUNTS(0, 1);
        add_frame(&made, frame, 60);
        COUNTS(0, 2);
        start(&made, order, marks[0], 1);
        add_frame(&made, frame, 60);
        add_frame(&made, frame, 65536);
        COUNTS(PFT_CUT_FRAME, 1);
        for (i = 0; i < sizeof too_large / sizeof too_large[0]; i++) {
            start(&made, order, marks[1], 1);
            add_frame(&made, frame, 60);
            add_header(&made, too_large[i]);
            COUNTS(PFT_CUT_FRAME, 1);
        }
    }
}

/* Each test comes before the next: the tree's own, the mark, the link, the frames. */
static void in_order(void)
{
    make_capture(0, BIG, marks[0]);
    made.length -= 1 + FRAME_HEADER; /* the frame before the last lacks a byte */
    COUNTS(PFT_CUT_FRAME, 3);
    made.bytes[LINK_PLACE + 3] = 101;
    COUNTS(PFT_OTHER_LINK, 0);
    made.bytes[0] = 0x0a;
    COUNTS(PFT_NO_CAPTURE, 0);
    TEST(count(39) == (uint64_t)PFT_SHORT_BUFFER << 32 && count(0) == (uint64_t)PFT_SHORT_BUFFER << 32);
    TEST(count(48) == (uint64_t)PFT_NO_CAPTURE << 32);
    pft_start(&tree, PFT_RAW_IP);
    pft_add_kind(&tree, PFT_KIND_ETHER_MULTICAST);
    COUNTS(PFT_ETHER_ON_RAW, 0);
    pft_start(&tree, PFT_LINUX_SLL);
    pft_add_kind(&tree, PFT_KIND_ETHER_MULTICAST);
    COUNTS(PFT_COOKED_ADDRESS, 0);
    pft_add_kind(&tree, PFT_KIND_ETHER_MULTICAST);
    COUNTS(PFT_NOT_ONE_TREE, 0);
    tree.bytes[8] = 99;
    COUNTS(PFT_BAD_RECORD, 0);
    tree.length--;
    COUNTS(PFT_WRONG_COUNT, 0);
    tree.bytes[0] = 0;
    COUNTS(PFT_STRANGE_FILE, 0);
    TEST(strcmp(pft_refusal_word(12), "no capture") == 0);
    TEST(strcmp(pft_refusal_word(13), "other link") == 0);
    TEST(strcmp(pft_refusal_word(14), "cut frame") == 0);
}

/* A capture of no frames, 24 bytes that are none, and an empty frame that is accepted. */
static void small_captures(void)
{
    make_tree(PFT_ETHERNET);
    start(&made, LITTLE, marks[0], 1);
    COUNTS(0, 0);
    made.bytes[3] = 0;
    COUNTS(PFT_NO_CAPTURE, 0);
    pft_start(&tree, PFT_RAW_IP);
    pft_add_protocol(&tree, PFT_IP);
    start(&made, LITTLE, marks[1], 101);
    add_frame(&made, NULL, 0);
    COUNTS(0, 1);
    made.length--;
    COUNTS(PFT_CUT_FRAME, 0);
}

/* Frames of one sender whose address has 0 to 15 bytes by the cooked header: that of six is accepted. */
static void cooked_senders(int order)
{
    static const uint8_t sender[6] = {2, 0, 0, 0, 0, 1};
    uint8_t length;

    pft_start(&tree, PFT_LINUX_SLL);
    pft_add_ether_host(&tree, PFT_SOURCE, sender);
    start(&made, order, marks[0], 113);
    make_frame(2, 17);
    memcpy(frame + 6, sender, 6);
    for (length = 0; length < MOST_FRAMES; length++) {
        frame[5] = length;
        add_frame(&made, frame, 80);
    }
    COUNTS(0, 1);
    pft_start(&tree, PFT_LINUX_SLL);
    pft_add_not(&tree);
    pft_add_ether_host(&tree, PFT_SOURCE, sender);
    COUNTS(0, MOST_FRAMES - 1);
}

/* Every place of a capture, and places far outside of it. */
static void every_place(void)
{
    static const size_t far_places[] = {SIZE_MAX, SIZE_MAX - 7, SIZE_MAX - 15, SIZE_MAX - 16, SIZE_MAX / 2,
                                        (size_t)1 << 32, ((size_t)1 << 32) + FILE_HEADER};
    size_t at, i, good = 0;
    uint8_t *bytes;

    make_capture(0, LITTLE, marks[0]);
    bytes = (uint8_t *)memcpy(lend(FRAME, made.length, 1), made.bytes, made.length);
    for (at = 0; at < made.length + 40; at++) {
        size_t captured = frame_at(bytes, made.length, at);
        uint64_t answer = pft_frame(bytes, made.length, at);

        TEST(answer == (captured == ROOM ? (uint64_t)14 << 32 : captured));
        TEST(pft_frame_refusal(answer) == (captured == ROOM ? 14 : 0));
        TEST(pft_frame_length(answer) == (captured == ROOM ? 0 : captured));
        good += captured != ROOM;
    }
    TEST(good > 7);
    for (i = 0; i < sizeof far_places / sizeof far_places[0]; i++)
        TEST(pft_frame(bytes, made.length, far_places[i]) == (uint64_t)14 << 32);
    bytes[0] ^= 1;
    for (at = 0; at < made.length + 40; at++)
        TEST(pft_frame(bytes, made.length, at) == (uint64_t)12 << 32);
    TEST(pft_frame(bytes, made.length, SIZE_MAX) == (uint64_t)12 << 32);
}

/* ---- a capture of over 4 GiB: a part of 256 frames, mapped 257 times in a row */

#define PART_FRAMES ((size_t)256)
#define PARTS ((size_t)257)
#define TAKEN ((size_t)65536) /* by a frame and its header */
#define PART (PART_FRAMES * TAKEN)

/* The parts, with room for a file header before them. */
static uint8_t *map_parts(FILE *part)
{
    size_t page = (size_t)sysconf(_SC_PAGESIZE), i;
    int memory = MAP_PRIVATE | MAP_ANONYMOUS | MAP_NORESERVE;
    uint8_t *all = (uint8_t *)mmap(NULL, page + PARTS * PART, PROT_READ | PROT_WRITE, memory, -1, 0);

    TEST(all != MAP_FAILED && part != NULL && ftruncate(fileno(part), (off_t)PART) == 0);
    for (i = 0; i < PARTS; i++) {
        void *place = all + page + i * PART;

        TEST(mmap(place, PART, PROT_READ | PROT_WRITE, MAP_SHARED | MAP_FIXED, fileno(part), 0) == place);
    }
    return all + page;
}

static void large_capture(void)
{
    FILE *part = tmpfile();
    uint8_t *parts = map_parts(part), *capture = parts - FILE_HEADER;
    size_t i, length = FILE_HEADER + PARTS * PART;

    make_tree(PFT_ETHERNET);
    start(&made, LITTLE, marks[0], 1);
    memcpy(capture, made.bytes, FILE_HEADER);
    for (i = 0; i < PART_FRAMES; i++) { /* every second frame is UDP */
        made.length = 0;
        add_header(&made, (uint32_t)(TAKEN - FRAME_HEADER));
        make_frame(0, i % 2 == 0 ? 6 : 17);
        memcpy(parts + i * TAKEN, made.bytes, FRAME_HEADER);
        memcpy(parts + i * TAKEN + FRAME_HEADER, frame, 60);
    }
    TEST(pft_count(tree.bytes, tree.length, program, ROOM, capture, length) == PARTS * PART_FRAMES / 2);
    TEST(pft_count(tree.bytes, tree.length, program, ROOM, capture, length - 1) ==
         ((uint64_t)14 << 32) + PARTS * PART_FRAMES / 2 - 1);
    TEST(pft_frame(capture, length, length - TAKEN) == TAKEN - FRAME_HEADER);
    TEST(pft_frame(capture, length - 1, length - TAKEN) == (uint64_t)14 << 32);
    TEST(munmap(parts, PARTS * PART) == 0 && fclose(part) == 0);
}

/* ---- slices shared, answers taken apart */

/* A tree that is a frame of the capture, and one that is the capture. */
static void shared_slices(void)
{
    make_tree(PFT_ETHERNET);
    start(&made, BIG, marks[0], 1);
    add_frame(&made, tree.bytes, tree.length);
    make_frame(0, 17);
    add_frame(&made, frame, 60);
    TEST(pft_count(made.bytes + FILE_HEADER + FRAME_HEADER, tree.length, program, PFT_PROGRAM_MAX, made.bytes,
                   made.length) == 1);
    TEST(pft_count(tree.bytes, tree.length, program, PFT_PROGRAM_MAX, tree.bytes, tree.length) == (uint64_t)12 << 32);
}

static void answers(void)
{
    TEST(pft_count_refusal(0xffffffffu) == 0 && pft_count_accepted(0xffffffffu) == 0xffffffffu);
    TEST(pft_count_refusal(((uint64_t)14 << 32) + 7) == 14 && pft_count_accepted(((uint64_t)14 << 32) + 7) == 7);
    TEST(pft_frame_refusal(65535) == 0 && pft_frame_length(65535) == 65535);
    TEST(pft_frame_refusal((uint64_t)99 << 32) == 99 && pft_frame_length((uint64_t)99 << 32) == 0);
}

int main(void)
{
    int link;

    make_rooms();
    good_captures();
    cut_captures(BIG);
    cut_captures(LITTLE);
    header_bits();
    other_marks();
    for (link = 0; link < LINKS; link++)
        other_links(link);
    zero_fields();
    frame_header_bits();
    long_frames();
    in_order();
    small_captures();
    cooked_senders(BIG);
    cooked_senders(LITTLE);
    every_place();
    large_capture();
    shared_slices();
    answers();
    printf("%u tests passed\n", tests);
    return 0;
}
