/*
 * Tests of pft.h and libpft.a, in the language that C and C++ share. Every slice stands once at
 * the end and once at the start of readable memory, so that a byte read or written outside it
 * ends the process.
 */
#define _DEFAULT_SOURCE /* mmap's MAP_ANONYMOUS */
#include <ucontext.h>

#include "pft.h"
#include "rooms.h"

/* ---- tree files */

struct file {
    uint8_t bytes[PFT_TREE_MAX + 24];
    size_t length;
};

/* A header with no records. */
static struct file start(uint8_t link)
{
    static const uint8_t mark[] = {'P', 'F', 'T', 0, 1};
    struct file f;

    memset(&f, 0, sizeof f);
    memcpy(f.bytes, mark, sizeof mark);
    f.bytes[5] = link;
    f.length = 8;
    return f;
}

/* Adds a record; all that is not named is zero. */
static void add(struct file *f, uint8_t kind, uint8_t direction, uint8_t protocol, uint16_t a)
{
    uint8_t *r = f->bytes + f->length;

    r[0] = kind;
    r[1] = direction;
    r[2] = protocol;
    r[4] = (uint8_t)(a >> 8);
    r[5] = (uint8_t)a;
    f->bytes[7]++;
    f->length += 24;
}

static struct file one(uint8_t link, uint8_t kind, uint8_t protocol, uint16_t a)
{
    struct file f = start(link);

    add(&f, kind, 0, protocol, a);
    return f;
}

enum { ETHERNET = 1, RAW_IP = 2, LINUX_SLL = 3 };
enum { AND = 1, OR = 2, NOT = 3, PROTOCOL = 10, HOST6 = 12, PORT = 15, ETHER_HOST = 17, MULTICAST = 19 };
enum { IP = 1, IP6 = 2, TCP = 5, ICMP = 7 };

/* Seven ether multicasts, an IPv6 source host, six IPv6 hosts in both and a last one. */
static struct file far_file(uint8_t last)
{
    struct file f = start(ETHERNET);
    int i;

    for (i = 0; i < 14; i++)
        add(&f, AND, 0, 0, 0);
    for (i = 0; i < 7; i++)
        add(&f, MULTICAST, 0, 0, 0);
    add(&f, HOST6, 1, 0, 0);
    for (i = 0; i < 6; i++)
        add(&f, HOST6, 3, 0, 0);
    add(&f, HOST6, last, 0, 0);
    return f;
}

/* ---- calls at both ends */

/* The answer of a build into so many bytes; the program is left in `out`. */
static uint32_t build(const struct file *f, size_t length, uint8_t *out)
{
    uint32_t answers[2];
    int end;

    for (end = 0; end < 2; end++) {
        uint8_t *tree = lend(TREE, f->length, end), *program = lend(PROGRAM, length, end);

        memset(rooms[PROGRAM], AROUND, ROOM);
        memcpy(tree, f->bytes, f->length);
        memset(program, STALE, length);
        answers[end] = pft_build(tree, f->length, program, length);
        TEST(memcmp(tree, f->bytes, f->length) == 0);
        TEST(untouched_around(PROGRAM, program, length));
        memcpy(out, program, length);
    }
    TEST(answers[0] == answers[1]);
    return answers[0];
}

static uint32_t run(const uint8_t *program, size_t length, const uint8_t *frame, size_t frame_length)
{
    uint32_t answers[2];
    int end;

    for (end = 0; end < 2; end++) {
        uint8_t *p = lend(PROGRAM, length, end), *f = lend(FRAME, frame_length, end);

        memcpy(p, program, length);
        memcpy(f, frame, frame_length);
        answers[end] = pft_run(p, length, f, frame_length);
        TEST(memcmp(p, program, length) == 0 && memcmp(f, frame, frame_length) == 0);
    }
    TEST(answers[0] == answers[1]);
    return answers[0];
}

static uint32_t direct(const struct file *f, const uint8_t *frame, size_t frame_length)
{
    uint32_t answers[2];
    int end;

    for (end = 0; end < 2; end++) {
        uint8_t *tree = lend(TREE, f->length, end), *lent = lend(FRAME, frame_length, end);

        memcpy(tree, f->bytes, f->length);
        memcpy(lent, frame, frame_length);
        answers[end] = pft_direct(tree, f->length, lent, frame_length);
    }
    TEST(answers[0] == answers[1]);
    return answers[0];
}

/* ---- tests */

static uint8_t buffer[ROOM], frame[ROOM];

/* A refusal by its number and word; the buffer is all zero. */
static void refused(struct file f, size_t length, unsigned number, const char *word)
{
    uint32_t answer = build(&f, length, buffer);

    TEST(answer == (uint32_t)number << 16);
    TEST(pft_build_refusal(answer) == number && pft_build_count(answer) == 0);
    TEST(strcmp(pft_refusal_word(number), word) == 0);
    TEST(all_are(buffer, length, 0));
}

static void refused_builds(void)
{
    struct file f = one(ETHERNET, PROTOCOL, IP, 0);

    refused(one(9, PROTOCOL, IP, 0), PFT_PROGRAM_MAX, PFT_STRANGE_FILE, "strange file");
    refused(start(ETHERNET), PFT_PROGRAM_MAX, PFT_WRONG_COUNT, "wrong count");
    refused(one(ETHERNET, 99, 0, 0), PFT_PROGRAM_MAX, PFT_BAD_RECORD, "bad record");
    refused(one(ETHERNET, AND, 0, 0), PFT_PROGRAM_MAX, PFT_NOT_ONE_TREE, "not one tree");
    refused(one(RAW_IP, PROTOCOL, IP6, 0), PFT_PROGRAM_MAX, PFT_KIND_ON_RAW, "kind on raw");
    refused(one(ETHERNET, PORT, ICMP, 53), PFT_PROGRAM_MAX, PFT_PORT_PROTOCOL, "port protocol");
    refused(one(RAW_IP, MULTICAST, 0, 0), PFT_PROGRAM_MAX, PFT_ETHER_ON_RAW, "ether on raw");
    refused(far_file(0), PFT_PROGRAM_MAX, PFT_FAR_JUMP, "far jump");
    refused(one(LINUX_SLL, ETHER_HOST, 0, 0), PFT_PROGRAM_MAX, PFT_COOKED_ADDRESS, "cooked address");
    refused(one(LINUX_SLL, MULTICAST, 0, 0), 0, PFT_COOKED_ADDRESS, "cooked address");
    refused(f, 31, PFT_SHORT_BUFFER, "short buffer");
    refused(f, 0, PFT_SHORT_BUFFER, "short buffer");
}

static void builds(void)
{
    static const uint8_t ip[32] = {0x28, 0, 0, 0, 12, 0, 0, 0, 0x15, 0, 0, 1, 0,    8,    0,    0,
                                   6,    0, 0, 0, 255, 255, 255, 255, 6, 0, 0, 0, 0, 0, 0, 0};
    struct file f = one(ETHERNET, PROTOCOL, IP, 0);
    uint32_t answer = build(&f, 32, buffer);

    TEST(answer == 4 && pft_build_refusal(answer) == 0 && pft_build_count(answer) == 4);
    TEST(memcmp(buffer, ip, 32) == 0);
    TEST(build(&f, ROOM, buffer) == 4);
    TEST(memcmp(buffer, ip, 32) == 0 && all_are(buffer + 32, ROOM - 32, 0));
    f = far_file(3);
    answer = build(&f, PFT_PROGRAM_MAX, buffer);
    TEST(answer == 258 && pft_build_count(answer) == 258 && buffer[8 + 3] == 255);
}

static void runs(void)
{
    struct file f = one(ETHERNET, PROTOCOL, IP, 0);
    static const uint8_t broken[8] = {0x94};
    uint32_t answer;

    TEST(build(&f, 32, buffer) == 4);
    memset(frame, 0, sizeof frame);
    answer = run(buffer, 32, frame, 13);
    TEST(answer == 3 * 65536 + 1 && pft_run_verdict(answer) == PFT_SHORT && pft_run_steps(answer) == 1);
    answer = run(buffer, 32, frame, 14);
    TEST(answer == 2 * 65536 + 3 && pft_run_verdict(answer) == PFT_DROPPED && pft_run_steps(answer) == 3);
    frame[12] = 8;
    answer = run(buffer, 32, frame, 14);
    TEST(answer == 65536 + 3 && pft_run_verdict(answer) == PFT_ACCEPTED && pft_run_refusal(answer) == 0);
    TEST(pft_run_verdict(run(buffer, 32, frame, PFT_FRAME_MAX)) == PFT_ACCEPTED);
    TEST(pft_run_verdict(run(broken, 8, frame, 0)) == PFT_BROKEN);
    answer = run(buffer, 32, frame, PFT_FRAME_MAX + 1);
    TEST(answer == (256u + 10) << 16 && pft_run_refusal(answer) == PFT_LONG_FRAME);
    TEST(pft_run_verdict(answer) == 0 && pft_run_steps(answer) == 0);
    TEST(pft_run_refusal(run(buffer, 31, frame, 14)) == PFT_ODD_PROGRAM);
    TEST(pft_run_refusal(run(buffer, PFT_RUN_MAX + 8, frame, PFT_FRAME_MAX + 1)) == PFT_ODD_PROGRAM);
    memset(buffer, 0, PFT_RUN_MAX); /* load the number 0, 4,095 times, and return it */
    buffer[PFT_RUN_MAX - 8] = 0x16;
    answer = run(buffer, PFT_RUN_MAX, frame, PFT_FRAME_MAX);
    TEST(answer == 2 * 65536 + 4096 && pft_run_verdict(answer) == PFT_DROPPED && pft_run_steps(answer) == 4096);
    TEST(strcmp(pft_refusal_word(PFT_LONG_FRAME), "long frame") == 0);
    TEST(strcmp(pft_refusal_word(PFT_ODD_PROGRAM), "odd program") == 0);
}

static void readings(void)
{
    struct file f = one(ETHERNET, PROTOCOL, IP, 0), raw = one(RAW_IP, PROTOCOL, IP6, 0);
    struct file cooked = one(LINUX_SLL, MULTICAST, 0, 0);
    uint32_t answer;

    memset(frame, 0, sizeof frame);
    frame[0] = 1, frame[12] = 8;
    TEST(direct(&f, frame, 13) == 1); /* the byte past the end is zero */
    TEST(direct(&f, frame, 12) == 0);
    TEST(direct(&raw, frame, 64) == 0); /* the build refuses this one, and the next */
    TEST(direct(&cooked, frame, 80) == 0);
    TEST(pft_direct_truth(1) == 1 && pft_direct_truth(0) == 0 && pft_direct_refusal(1) == 0);
    answer = direct(&f, frame, PFT_FRAME_MAX + 1);
    TEST(answer == 256 + 10 && pft_direct_refusal(answer) == PFT_LONG_FRAME && !pft_direct_truth(answer));
    f.bytes[0] = 'Q';
    TEST(pft_direct_refusal(direct(&f, frame, PFT_FRAME_MAX + 1)) == PFT_STRANGE_FILE);
}

/* A slice of no bytes: NULL, and a pointer to memory that cannot be read. */
static void no_bytes(void)
{
    uint8_t *nowhere = rooms[FRAME] + ROOM;
    uint8_t *places[2];
    struct file f = one(RAW_IP, PROTOCOL, IP, 0);
    int i;

    places[0] = NULL;
    places[1] = nowhere;
    TEST(build(&f, 16, buffer) == 2);
    for (i = 0; i < 2; i++) {
        uint8_t *none = places[i];

        TEST(pft_build(none, 0, buffer, 16) == 1u << 16 && all_are(buffer, 16, 0));
        TEST(pft_build(none, 0, none, 0) == 1u << 16);
        TEST(pft_build(f.bytes, f.length, none, 0) == 9u << 16);
        TEST(pft_question(none, 0) == 1u << 16);
        TEST(pft_load(none, 0, 2, none, 0) == 1u << 16);
        TEST(pft_load(f.bytes, f.length, 3, none, 0) == 19u << 16);
        TEST(pft_load(f.bytes, f.length, 2, none, 0) == 9u << 16);
        TEST(pft_build(f.bytes, f.length, buffer, 16) == 2);
        TEST(pft_run(buffer, 16, none, 0) == 65536 + 1);
        TEST(pft_run(none, 0, none, 0) == (256u + 11) << 16);
        TEST(pft_run(none, 0, frame, 14) == (256u + 11) << 16);
        TEST(pft_direct(f.bytes, f.length, none, 0) == 1);
        TEST(pft_direct(none, 0, none, 0) == 256 + 1);
        TEST(pft_direct(none, 0, frame, 14) == 256 + 1);
        TEST(pft_count(none, 0, none, 0, none, 0) == (uint64_t)1 << 32);
        TEST(pft_count(f.bytes, f.length, none, 0, none, 0) == (uint64_t)9 << 32);
        TEST(pft_count(f.bytes, f.length, buffer, 16, none, 0) == (uint64_t)12 << 32);
        TEST(pft_run(buffer, 16, none, 0) == 65536 + 1);
        TEST(pft_frame(none, 0, 0) == (uint64_t)12 << 32);
        TEST(pft_frame(none, 0, PFT_CAPTURE_HEADER_SIZE) == (uint64_t)12 << 32);
    }
}

/* A frame that is the program, and a tree that is the frame. */
static void shared_slices(void)
{
    struct file f = one(RAW_IP, PROTOCOL, TCP, 0);
    uint32_t answer = build(&f, PFT_PROGRAM_MAX, buffer);

    TEST(pft_build_count(answer) == 4);
    TEST(pft_run(buffer, 32, buffer, 32) == 2 * 65536 + 3);
    TEST(pft_direct(f.bytes, f.length, f.bytes, f.length) == 0);
}

/*
 * The deepest trees, 127 nots over each kind, on a stack of PFT_STACK bytes: over a frame of zeros,
 * and over a capture of that frame.
 */

static uint8_t capture[24 + 16 + 128] = {0xa1, 0xb2, 0xc3, 0xd4};

static struct file deep;
static uint32_t deep_answers[5];
static uint64_t deep_count;
static ucontext_t here, there;

static void deep_calls(void)
{
    deep_answers[0] = pft_build(deep.bytes, deep.length, buffer, PFT_PROGRAM_MAX);
    deep_answers[1] = pft_run(buffer, 8 * pft_build_count(deep_answers[0]), frame, 128);
    deep_answers[2] = pft_direct(deep.bytes, deep.length, frame, 128);
    deep_answers[3] = pft_question(deep.bytes, deep.length);
    deep_answers[4] = pft_load(deep.bytes, deep.length, deep_answers[3], buffer, PFT_PROGRAM_MAX);
    deep_count = pft_count(deep.bytes, deep.length, buffer, PFT_PROGRAM_MAX, capture, sizeof capture);
}

static void on_small_stack(uint8_t *stack, uint8_t kind, uint8_t protocol)
{
    int i;

    deep = start(ETHERNET);
    for (i = 0; i < 127; i++)
        add(&deep, NOT, 0, 0, 0);
    add(&deep, kind, 0, protocol, 0);
    TEST(getcontext(&there) == 0);
    there.uc_stack.ss_sp = stack;
    there.uc_stack.ss_size = PFT_STACK;
    there.uc_link = &here;
    makecontext(&there, deep_calls, 0);
    TEST(swapcontext(&here, &there) == 0);
    TEST(pft_build_refusal(deep_answers[0]) == 0 && pft_build_count(deep_answers[0]) > 127);
    TEST(pft_run_verdict(deep_answers[1]) == (deep_answers[2] ? PFT_ACCEPTED : PFT_DROPPED));
    TEST(deep_answers[3] == deep_answers[0] && deep_answers[4] == deep_answers[0]);
    TEST(deep_count == deep_answers[2]);
}

static void deep_trees(void)
{
    uint8_t *stack = make_room(PFT_STACK);
    uint8_t kind;

    memset(frame, 0, sizeof frame);
    capture[23] = 1;        /* Ethernet */
    capture[24 + 11] = 128; /* the captured length */
    for (kind = PROTOCOL; kind <= 24; kind++)
        on_small_stack(stack, kind, kind == PROTOCOL ? TCP : 0);
}

static void words(void)
{
    TEST(strcmp(pft_verdict_word(PFT_ACCEPTED), "accepted") == 0);
    TEST(strcmp(pft_verdict_word(PFT_DROPPED), "dropped") == 0);
    TEST(strcmp(pft_verdict_word(PFT_SHORT), "short") == 0);
    TEST(strcmp(pft_verdict_word(PFT_BROKEN), "broken") == 0);
    TEST(strcmp(pft_verdict_word(0), "no verdict") == 0);
    TEST(strcmp(pft_verdict_word(5), "unknown verdict") == 0);
    TEST(strcmp(pft_refusal_word(0), "not refused") == 0);
    TEST(strcmp(pft_refusal_word(20), "unknown refusal") == 0);
    TEST(strcmp(pft_refusal_word(65535), "unknown refusal") == 0);
}

/* The archive is the header's own. */
static void version(void)
{
    TEST(pft_version() == PFT_VERSION && pft_serves());
}

int main(void)
{
    make_rooms();
    refused_builds();
    builds();
    runs();
    readings();
    no_bytes();
    shared_slices();
    deep_trees();
    words();
    version();
    printf("%u tests passed\n", tests);
    return 0;
}
