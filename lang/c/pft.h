/*
 * pft.h: classic BPF programs made from typed lines and tree files, and their runs over frames and
 * captures.
 *
 * Link with libpft.a, which `tools/library` writes to target/staticlib:
 *
 *     cc -I lang/c program.c target/staticlib/libpft.a
 *
 * The functions of the archive are proved equal to their definitions for all inputs
 * (docs/PROMISES.md). They hold no state, allocate nothing, need no library but for memset and its
 * like, and may be called from several threads at once. A call takes at most PFT_STACK bytes of
 * stack. The inline functions below their prototypes, which take answers apart, walk captures and
 * write tree files, are tested and not proved.
 *
 * Slices. Every slice is a pointer and the number of its bytes; no alignment is asked.
 *   - The bytes must be readable (for `program` of pft_build, pft_load and pft_count and `tree` of
 *     pft_type writable) during the call, and nothing else may write them. No other byte is read or
 *     written.
 *   - A slice of 0 bytes may have any pointer, NULL too. NULL with another length is an error of
 *     the caller's, which no function tests.
 *   - `program` of pft_build, pft_load and pft_count must not overlap their other slices, nor `tree`
 *     of pft_type its text. All others, those of pft_run, `tree` and `capture` of pft_count and so
 *     on, may overlap.
 *
 * Answers are one number, which functions below take apart.
 */
#ifndef PFT_H
#define PFT_H

#include <stddef.h>
#include <stdint.h>
#include <string.h>

#ifdef __cplusplus
extern "C" {
#endif

/* The version of libpft.a that this header is for. Each addition to the interface raises it by one. */
#define PFT_VERSION 5

/* Why a call is refused. Later versions add numbers. */
enum pft_refusal {
    PFT_STRANGE_FILE = 1,    /* under 8 bytes, or mark, version or link differs */
    PFT_WRONG_COUNT = 2,     /* count 0 or over 128, or length not 8 + 24 x count */
    PFT_BAD_RECORD = 3,      /* unknown kind, direction or protocol, or an unused byte not zero */
    PFT_NOT_ONE_TREE = 4,    /* prefix reading doesn't end exactly at the last record */
    PFT_KIND_ON_RAW = 5,     /* RawIp, and an ethertype other than 0x0800 is to be tested */
    PFT_PORT_PROTOCOL = 6,   /* port or range with a protocol other than 0, 5, 6, 10 */
    PFT_ETHER_ON_RAW = 7,    /* RawIp with kind 17 or 19 */
    PFT_FAR_JUMP = 8,        /* a resolved distance exceeds 255 */
    PFT_SHORT_BUFFER = 9,    /* fewer than 8 x instructions bytes lent */
    PFT_LONG_FRAME = 10,     /* frame over 65,535 bytes */
    PFT_ODD_PROGRAM = 11,    /* program of length 0, over 32,768, or not a multiple of 8 */
    PFT_NO_CAPTURE = 12,     /* a short header or other mark */
    PFT_OTHER_LINK = 13,     /* the link isn't the tree's */
    PFT_CUT_FRAME = 14,      /* a frame header or body runs past the file or is over 65,535 bytes */
    PFT_COOKED_ADDRESS = 15, /* LinuxSll with kind 17 and a direction other than 1, or with kind 19 */
    PFT_UNKNOWN_WORD = 16,   /* a typed word that is none, and no address or port number either */
    PFT_UNFINISHED = 17,     /* a typed word that can't follow, or the line's end where more has to */
    PFT_TOO_LARGE = 18,      /* a typed line of over 128 records, or with over 128 brackets open at once */
    PFT_COUNT_MOVED = 19     /* a load of another count than the tree has */
};

/* How a run ends. */
enum pft_verdict {
    PFT_ACCEPTED = 1,
    PFT_DROPPED = 2,
    PFT_SHORT = 3, /* a packet load leaves the frame */
    PFT_BROKEN = 4 /* the program is at fault; never that of a build */
};

/* The largest tree file and frame, and the most that a build writes. */
#define PFT_TREE_MAX ((size_t)3080)
#define PFT_FRAME_MAX ((size_t)65535)
#define PFT_COUNT_MAX ((size_t)3946)
#define PFT_PROGRAM_MAX (8 * PFT_COUNT_MAX)

/* The longest program that is run. */
#define PFT_RUN_MAX ((size_t)32768)

/* The bytes before a capture's first frame header, and those of a frame header. */
#define PFT_CAPTURE_HEADER_SIZE ((size_t)24)
#define PFT_FRAME_HEADER_SIZE ((size_t)16)

/*
 * The stack that a call may take, in bytes. Measured: a build, a load or a count 1,900 for one record
 * and 115,300 for 127 nots over one, which is the deepest tree, a question 1,500 and 83,600; a direct
 * reading 300 and 24,800; a typed line 2,700, whatever it is; a run or a frame below 300.
 */
#define PFT_STACK ((size_t)262144)

/* The version of the libpft.a that is linked. */
uint32_t pft_version(void);

/* 1 where the archive has all that this header names: it is of PFT_VERSION or later. */
static inline int pft_serves(void)
{
    return pft_version() >= PFT_VERSION;
}

/*
 * Makes the program of a tree file: 8 bytes for each instruction, little-endian (16-bit code, jt,
 * jf, 32-bit k), from the start of `program`; the rest of it is set to zero. A refusal (1 to 9
 * or 15) sets all of it to zero. With PFT_PROGRAM_MAX bytes there is no PFT_SHORT_BUFFER.
 *
 * On a little-endian machine the program is an array of Linux's struct sock_filter; for such use
 * lend a buffer that is aligned for it.
 *
 * Answer: refusal x 65,536 + count.
 */
uint32_t pft_build(const uint8_t *tree, size_t tree_length, uint8_t *program, size_t program_length);

/*
 * Tells how many instructions the program of a tree file has, so that room for it is reserved before
 * it is loaded. No buffer is lent and none is written.
 *
 * Answer: refusal x 65,536 + count, as of a pft_build with enough room. Refused with 1 to 8 or 15,
 * never with PFT_SHORT_BUFFER or PFT_COUNT_MOVED.
 */
uint32_t pft_question(const uint8_t *tree, size_t tree_length);

/*
 * Makes the program of a tree file that still has a count of instructions. The tree is taken as it
 * is now: one that was edited to another program of the same count is loaded so. Where it has the
 * count, answer and bytes are those of pft_build. The count is compared in all 32 bits.
 *
 * `count` may be an answer of pft_question: where that is not refused it is the count itself, and
 * where it is refused no tree has such a count.
 *
 * Answer: refusal x 65,536 + count. Refused with 1 to 8 or 15, then with PFT_COUNT_MOVED, then with
 * PFT_SHORT_BUFFER; each sets all of `program` to zero.
 */
uint32_t pft_load(const uint8_t *tree, size_t tree_length, uint32_t count, uint8_t *program, size_t program_length);

/*
 * Runs a program, of pft_build or any other, over a frame. The program is the 8 x count bytes
 * that a build answers, not the whole buffer.
 *
 * Answer: verdict x 65,536 + steps (the instructions fetched). Refused with PFT_ODD_PROGRAM or
 * then PFT_LONG_FRAME: (256 + refusal) x 65,536.
 */
uint32_t pft_run(const uint8_t *program, size_t program_length, const uint8_t *frame, size_t frame_length);

/*
 * Reads a tree on a frame directly, without a program; bytes past the frame's end are zero.
 *
 * Answer: 1 true or 0 false. Refused with 1 to 4 or then PFT_LONG_FRAME: 256 + refusal.
 */
uint32_t pft_direct(const uint8_t *tree, size_t tree_length, const uint8_t *frame, size_t frame_length);

/*
 * Makes the program of a tree file, runs it over each frame of a capture and counts the accepted
 * frames. A capture is a classic pcap file of either byte order, with times in microseconds (mark
 * a1b2c3d4) or nanoseconds (a1b23c4d). Its link field has to be that of the tree's link (see enum
 * pft_link) in all 32 bits; version, zone, snap length, times and original lengths are not tested.
 * A header alone is a capture of no frames, and a frame may have no bytes.
 *
 * `program` is left as pft_build leaves it, whatever the capture is.
 *
 * Answer: refusal x 2^32 + accepted frames. Refused as by pft_build, then with PFT_NO_CAPTURE, then
 * PFT_OTHER_LINK, then at the first bad frame PFT_CUT_FRAME: with this one stands the count of the
 * accepted frames before it, with all others 0. From 2^32 accepted frames on, in a capture of over
 * 64 GiB, the sum does not tell the two apart.
 */
uint64_t pft_count(const uint8_t *tree, size_t tree_length, uint8_t *program, size_t program_length,
                   const uint8_t *capture, size_t capture_length);

/*
 * Measures the frame whose header stands at byte `at` of a capture, the first at
 * PFT_CAPTURE_HEADER_SIZE. The frame is the piece of the capture from capture + at +
 * PFT_FRAME_HEADER_SIZE on, and the next header stands behind it. pft_next walks so.
 *
 * Answer: the captured length. Refused with PFT_NO_CAPTURE, or then with PFT_CUT_FRAME where no
 * whole frame of at most PFT_FRAME_MAX bytes stands, at the capture's end too: refusal x 2^32. The
 * link is not tested, and `at` may be any number.
 */
uint64_t pft_frame(const uint8_t *capture, size_t capture_length, size_t at);

/*
 * Writes the tree file of a typed line, as "tcp and not dst port 80", for a link: an enum pft_link, or
 * any other byte. The words of a line are separated by spaces and by nothing else; docs/FORMAT.md has
 * them, and how their meaning departs from tcpdump's. The text may be of any length, hold any bytes,
 * and needs no NUL.
 *
 * `tree` has PFT_TREE_MAX bytes, all of which are written: the file from its start, and zero after
 * its end. A refusal sets all of them to zero.
 *
 * Answer: the file's length in bytes, 8 + 24 x records. Refused: refusal x 2^32 + place, namely
 *   - with PFT_STRANGE_FILE for another link than 1 to 3, before the text is read; the place is 0;
 *   - then at the earliest place with PFT_UNKNOWN_WORD or PFT_UNFINISHED, the place being the byte,
 *     from 0 on, where the word at fault starts, or the text's length where more has to follow;
 *   - then with PFT_TOO_LARGE; the place is 0.
 * From 2^32 bytes of text on the sum does not tell refusal and place apart.
 */
uint64_t pft_type(uint8_t link, const uint8_t *text, size_t text_length, uint8_t *tree);

/* ---- answers taken apart; a refusal is 0 where there is none */

/* Of pft_build, pft_question or pft_load. */
static inline unsigned pft_build_refusal(uint32_t answer)
{
    return (unsigned)(answer >> 16);
}

/* The instructions, of the same three; 0 where they refuse. */
static inline size_t pft_build_count(uint32_t answer)
{
    return answer & 0xffffu;
}

/* The bytes of the instructions: the room to reserve, and the length of the program to run. */
static inline size_t pft_build_bytes(uint32_t answer)
{
    return 8 * pft_build_count(answer);
}

static inline unsigned pft_run_refusal(uint32_t answer)
{
    return (answer >> 16) > 256 ? (unsigned)(answer >> 16) - 256 : 0;
}

/* An enum pft_verdict; 0 for a refused run. */
static inline unsigned pft_run_verdict(uint32_t answer)
{
    return (answer >> 16) > 256 ? 0 : (unsigned)(answer >> 16);
}

static inline unsigned pft_run_steps(uint32_t answer)
{
    return (unsigned)(answer & 0xffffu);
}

static inline unsigned pft_direct_refusal(uint32_t answer)
{
    return answer > 256 ? (unsigned)answer - 256 : 0;
}

/* 1 for true, 0 for false; 0 for a refused reading. */
static inline int pft_direct_truth(uint32_t answer)
{
    return answer == 1;
}

static inline unsigned pft_count_refusal(uint64_t answer)
{
    return (unsigned)(answer >> 32);
}

/* The accepted frames: with PFT_CUT_FRAME those before the bad one, with another refusal 0. */
static inline uint32_t pft_count_accepted(uint64_t answer)
{
    return (uint32_t)answer;
}

static inline unsigned pft_frame_refusal(uint64_t answer)
{
    return (unsigned)(answer >> 32);
}

/* The captured length; 0 where there is no frame. */
static inline size_t pft_frame_length(uint64_t answer)
{
    return (uint32_t)answer;
}

static inline unsigned pft_type_refusal(uint64_t answer)
{
    return (unsigned)(answer >> 32);
}

/* The file's length in bytes; 0 for a refused line. */
static inline size_t pft_type_length(uint64_t answer)
{
    return pft_type_refusal(answer) == 0 ? (uint32_t)answer : 0;
}

/* The byte of the text where PFT_UNKNOWN_WORD or PFT_UNFINISHED is met; 0 for every other answer. */
static inline size_t pft_type_place(uint64_t answer)
{
    return pft_type_refusal(answer) == 0 ? 0 : (uint32_t)answer;
}

/* ---- words */

/* The word of a refusal, for any number: one of a later version is an "unknown refusal". */
static inline const char *pft_refusal_word(unsigned refusal)
{
    switch (refusal) {
    case 0: return "not refused";
    case PFT_STRANGE_FILE: return "strange file";
    case PFT_WRONG_COUNT: return "wrong count";
    case PFT_BAD_RECORD: return "bad record";
    case PFT_NOT_ONE_TREE: return "not one tree";
    case PFT_KIND_ON_RAW: return "kind on raw";
    case PFT_PORT_PROTOCOL: return "port protocol";
    case PFT_ETHER_ON_RAW: return "ether on raw";
    case PFT_FAR_JUMP: return "far jump";
    case PFT_SHORT_BUFFER: return "short buffer";
    case PFT_LONG_FRAME: return "long frame";
    case PFT_ODD_PROGRAM: return "odd program";
    case PFT_NO_CAPTURE: return "no capture";
    case PFT_OTHER_LINK: return "other link";
    case PFT_CUT_FRAME: return "cut frame";
    case PFT_COOKED_ADDRESS: return "cooked address";
    case PFT_UNKNOWN_WORD: return "unknown word";
    case PFT_UNFINISHED: return "unfinished";
    case PFT_TOO_LARGE: return "too large";
    case PFT_COUNT_MOVED: return "count moved";
    default: return "unknown refusal";
    }
}

/* The word of a verdict, for any number. */
static inline const char *pft_verdict_word(unsigned verdict)
{
    switch (verdict) {
    case 0: return "no verdict";
    case PFT_ACCEPTED: return "accepted";
    case PFT_DROPPED: return "dropped";
    case PFT_SHORT: return "short";
    case PFT_BROKEN: return "broken";
    default: return "unknown verdict";
    }
}

/*
 * ---- captures walked
 *
 * The frames of a capture in turn, each a piece of the capture itself:
 *
 *     struct pft_frames frames = pft_frames_of(capture, capture_length);
 *     while (pft_next(&frames))
 *         answer = pft_run(program, program_length, frames.frame, frames.length);
 *     if (frames.refusal != 0)
 *         puts(pft_refusal_word(frames.refusal));
 *
 * A bad frame ends the walk after the frames before it. The link is not tested: pft_count does.
 */

/* Where a walk is. */
struct pft_frames {
    const uint8_t *capture;
    size_t capture_length;
    size_t at;            /* where the next header stands: in the end the capture's end, or a bad frame's */
    const uint8_t *frame; /* the frame that pft_next gave; NULL where it gave none */
    size_t length;
    unsigned refusal; /* PFT_NO_CAPTURE or PFT_CUT_FRAME, where one ended the walk */
};

/* A walk before its first frame. */
static inline struct pft_frames pft_frames_of(const uint8_t *capture, size_t capture_length)
{
    struct pft_frames frames;

    frames.capture = capture;
    frames.capture_length = capture_length;
    frames.at = PFT_CAPTURE_HEADER_SIZE;
    frames.frame = NULL;
    frames.length = 0;
    frames.refusal = 0;
    return frames;
}

/* Goes to the next frame; 0 where there is none. */
static inline int pft_next(struct pft_frames *frames)
{
    uint64_t answer = pft_frame(frames->capture, frames->capture_length, frames->at);
    int at_end = frames->at == frames->capture_length;

    frames->refusal = pft_frame_refusal(answer);
    frames->length = pft_frame_length(answer);
    if (frames->refusal != 0) {
        frames->frame = NULL;
        if (frames->refusal == PFT_CUT_FRAME && at_end)
            frames->refusal = 0;
        return 0;
    }
    frames->frame = frames->capture + frames->at + PFT_FRAME_HEADER_SIZE;
    frames->at += PFT_FRAME_HEADER_SIZE + frames->length;
    return 1;
}

/*
 * ---- tree files written
 *
 * A file comes from a typed line,
 *
 *     struct pft_tree tree;
 *     answer = pft_type_tree(&tree, PFT_ETHERNET, "tcp and not dst port 80");
 *     if (pft_type_refusal(answer) != 0)
 *         printf("%*s\n", (int)pft_type_place(answer) + 1, "^");
 *
 * or is started, and its records are added in prefix order: a join, then its left part, then its
 * right part. The same tree:
 *
 *     struct pft_tree tree;
 *     pft_start(&tree, PFT_ETHERNET);
 *     pft_add_and(&tree);
 *     pft_add_protocol(&tree, PFT_TCP);
 *     pft_add_not(&tree);
 *     pft_add_port(&tree, PFT_DESTINATION, PFT_NO_PROTOCOL, 80);
 *     answer = pft_build(tree.bytes, tree.length, program, sizeof program);
 *
 * Nothing need be tested on the way. The 129th record is counted and not written, so that the
 * file is refused with PFT_WRONG_COUNT; with a record too few or too many for its joins it is
 * refused with PFT_NOT_ONE_TREE.
 */

/* What a frame starts with. In the link field of a capture they are 1, 101 and 113. */
enum pft_link {
    PFT_ETHERNET = 1,
    PFT_RAW_IP = 2,   /* the IPv4 header itself */
    PFT_LINUX_SLL = 3 /* a Linux cooked header, which has the sender's address and no other */
};

/* Which of a frame's two addresses or ports is meant. */
enum pft_direction {
    PFT_EITHER = 0,
    PFT_SOURCE = 1,
    PFT_DESTINATION = 2,
    PFT_BOTH = 3
};

/* Protocols; PFT_TCP alone is TCP over IPv4, a port of PFT_TCP one over IPv4 or IPv6. */
enum pft_protocol {
    PFT_NO_PROTOCOL = 0, /* for ports: Tcp or Udp */
    PFT_IP = 1,
    PFT_IP6 = 2,
    PFT_ARP = 3,
    PFT_RARP = 4,
    PFT_TCP = 5,
    PFT_UDP = 6,
    PFT_ICMP = 7,
    PFT_ICMP6 = 8,
    PFT_IGMP = 9,
    PFT_SCTP = 10,
    PFT_NUM = 11,      /* an IPv4 protocol by its number, which stands in `small` */
    PFT_IP6_PROTO = 12 /* an IPv6 next header likewise */
};

/* What a record is. */
enum pft_kind {
    PFT_KIND_AND = 1,
    PFT_KIND_OR = 2,
    PFT_KIND_NOT = 3,
    PFT_KIND_PROTOCOL = 10,
    PFT_KIND_HOST = 11,
    PFT_KIND_HOST6 = 12,
    PFT_KIND_NET = 13,
    PFT_KIND_NET6 = 14,
    PFT_KIND_PORT = 15,
    PFT_KIND_PORT_RANGE = 16,
    PFT_KIND_ETHER_HOST = 17,
    PFT_KIND_ETHER_PROTOCOL = 18,
    PFT_KIND_ETHER_MULTICAST = 19,
    PFT_KIND_IP_BROADCAST = 20,
    PFT_KIND_IP_MULTICAST = 21,
    PFT_KIND_IP6_MULTICAST = 22,
    PFT_KIND_CHAIN = 23,
    PFT_KIND_CHAIN6 = 24
};

/* The bytes before the first record, and those of a record. */
#define PFT_HEADER_SIZE ((size_t)8)
#define PFT_RECORD_SIZE ((size_t)24)

/* A tree file that is being written: its first `length` bytes. */
struct pft_tree {
    size_t length;
    uint8_t bytes[PFT_TREE_MAX];
};

/* The fields of a record; those that its kind does not use are zero. */
struct pft_record {
    uint8_t kind, direction, protocol, small;
    uint16_t a, b;
    uint8_t address[16];
};

static inline void pft_put16(uint8_t *place, uint16_t number)
{
    place[0] = (uint8_t)(number >> 8);
    place[1] = (uint8_t)number;
}

/*
 * Writes the file of a typed line that ends with a NUL; the answer is that of pft_type. A refused
 * line leaves a file of no bytes, which a build refuses with PFT_STRANGE_FILE.
 */
static inline uint64_t pft_type_tree(struct pft_tree *tree, enum pft_link link, const char *line)
{
    uint64_t answer = pft_type((uint8_t)link, (const uint8_t *)line, strlen(line), tree->bytes);

    tree->length = pft_type_length(answer);
    return answer;
}

/* A file without records. */
static inline void pft_start(struct pft_tree *tree, enum pft_link link)
{
    memset(tree, 0, sizeof *tree);
    memcpy(tree->bytes, "PFT", 3);
    pft_put16(tree->bytes + 3, 1);
    tree->bytes[5] = (uint8_t)link;
    tree->length = PFT_HEADER_SIZE;
}

/* Adds any record. */
static inline void pft_add(struct pft_tree *tree, struct pft_record record)
{
    unsigned count = tree->bytes[6] * 256u + tree->bytes[7];
    uint8_t *place = tree->bytes + tree->length;

    if (count < 0xffff)
        pft_put16(tree->bytes + 6, (uint16_t)(count + 1));
    if (tree->length + PFT_RECORD_SIZE > PFT_TREE_MAX)
        return;
    place[0] = record.kind;
    place[1] = record.direction;
    place[2] = record.protocol;
    place[3] = record.small;
    pft_put16(place + 4, record.a);
    pft_put16(place + 6, record.b);
    memcpy(place + 8, record.address, sizeof record.address);
    tree->length += PFT_RECORD_SIZE;
}

/* A record of a kind and a direction; the rest is zero. */
static inline struct pft_record pft_record_of(enum pft_kind kind, enum pft_direction direction)
{
    struct pft_record record;

    memset(&record, 0, sizeof record);
    record.kind = (uint8_t)kind;
    record.direction = (uint8_t)direction;
    return record;
}

/*
 * Adds a record that is its kind alone: a join, a broadcast or a multicast. PFT_KIND_ETHER_MULTICAST
 * is for PFT_ETHERNET: a build refuses it with PFT_ETHER_ON_RAW or PFT_COOKED_ADDRESS elsewhere.
 */
static inline void pft_add_kind(struct pft_tree *tree, enum pft_kind kind)
{
    pft_add(tree, pft_record_of(kind, PFT_EITHER));
}

/* Adds an and; its left part and its right part follow. */
static inline void pft_add_and(struct pft_tree *tree)
{
    pft_add_kind(tree, PFT_KIND_AND);
}

/* Adds an or; its left part and its right part follow. */
static inline void pft_add_or(struct pft_tree *tree)
{
    pft_add_kind(tree, PFT_KIND_OR);
}

/* Adds a not; its part follows. */
static inline void pft_add_not(struct pft_tree *tree)
{
    pft_add_kind(tree, PFT_KIND_NOT);
}

/* Adds a protocol from PFT_IP to PFT_SCTP. */
static inline void pft_add_protocol(struct pft_tree *tree, enum pft_protocol protocol)
{
    struct pft_record record = pft_record_of(PFT_KIND_PROTOCOL, PFT_EITHER);

    record.protocol = (uint8_t)protocol;
    pft_add(tree, record);
}

/* Adds PFT_NUM, an IPv4 protocol, or PFT_IP6_PROTO, an IPv6 next header, with its number. */
static inline void pft_add_protocol_number(struct pft_tree *tree, enum pft_protocol protocol, uint8_t number)
{
    struct pft_record record = pft_record_of(PFT_KIND_PROTOCOL, PFT_EITHER);

    record.protocol = (uint8_t)protocol;
    record.small = number;
    pft_add(tree, record);
}

/* Adds PFT_KIND_CHAIN or PFT_KIND_CHAIN6, a protocol chain for IPv4 or IPv6. */
static inline void pft_add_chain(struct pft_tree *tree, enum pft_kind kind, uint8_t number)
{
    struct pft_record record = pft_record_of(kind, PFT_EITHER);

    record.small = number;
    pft_add(tree, record);
}

/*
 * Addresses are their bytes in the order of a packet: what inet_pton writes, or an array such as
 *
 *     static const uint8_t drive[4] = {10, 20, 0, 5};
 */

static inline void pft_add_address(struct pft_tree *tree, struct pft_record record, const uint8_t *address,
                                   size_t length)
{
    memcpy(record.address, address, length);
    pft_add(tree, record);
}

/* Adds an IPv4 address. */
static inline void pft_add_host(struct pft_tree *tree, enum pft_direction direction, const uint8_t address[4])
{
    pft_add_address(tree, pft_record_of(PFT_KIND_HOST, direction), address, 4);
}

/* Adds an IPv6 address. */
static inline void pft_add_host6(struct pft_tree *tree, enum pft_direction direction, const uint8_t address[16])
{
    pft_add_address(tree, pft_record_of(PFT_KIND_HOST6, direction), address, 16);
}

/*
 * Adds an Ethernet address. A build refuses it on PFT_RAW_IP with PFT_ETHER_ON_RAW. On PFT_LINUX_SLL
 * it takes PFT_SOURCE, the sender, whose address then has to be six bytes long, and refuses every
 * other direction with PFT_COOKED_ADDRESS.
 */
static inline void pft_add_ether_host(struct pft_tree *tree, enum pft_direction direction, const uint8_t address[6])
{
    pft_add_address(tree, pft_record_of(PFT_KIND_ETHER_HOST, direction), address, 6);
}

/* Adds an IPv4 address under a mask, which may be any. */
static inline void pft_add_net_mask(struct pft_tree *tree, enum pft_direction direction, const uint8_t address[4],
                                    const uint8_t mask[4])
{
    struct pft_record record = pft_record_of(PFT_KIND_NET, direction);

    memcpy(record.address + 4, mask, 4);
    pft_add_address(tree, record, address, 4);
}

/* Adds an IPv4 address under a prefix; over 32 counts as 32. */
static inline void pft_add_net(struct pft_tree *tree, enum pft_direction direction, const uint8_t address[4],
                               unsigned prefix)
{
    uint32_t bits = prefix == 0 ? 0 : prefix >= 32 ? 0xffffffffu : ~(0xffffffffu >> prefix);
    uint8_t mask[4];

    pft_put16(mask, (uint16_t)(bits >> 16));
    pft_put16(mask + 2, (uint16_t)bits);
    pft_add_net_mask(tree, direction, address, mask);
}

/* Adds an IPv6 address under a prefix; over 128 counts as 128. */
static inline void pft_add_net6(struct pft_tree *tree, enum pft_direction direction, const uint8_t address[16],
                                uint8_t prefix)
{
    struct pft_record record = pft_record_of(PFT_KIND_NET6, direction);

    record.small = prefix;
    pft_add_address(tree, record, address, 16);
}

/* Adds a port of PFT_TCP, PFT_UDP, PFT_SCTP or PFT_NO_PROTOCOL. */
static inline void pft_add_port(struct pft_tree *tree, enum pft_direction direction, enum pft_protocol protocol,
                                uint16_t port)
{
    struct pft_record record = pft_record_of(PFT_KIND_PORT, direction);

    record.protocol = (uint8_t)protocol;
    record.a = port;
    pft_add(tree, record);
}

/* Adds the ports from low to high, both included; the protocol is as for pft_add_port. */
static inline void pft_add_ports(struct pft_tree *tree, enum pft_direction direction, enum pft_protocol protocol,
                                 uint16_t low, uint16_t high)
{
    struct pft_record record = pft_record_of(PFT_KIND_PORT_RANGE, direction);

    record.protocol = (uint8_t)protocol;
    record.a = low;
    record.b = high;
    pft_add(tree, record);
}

/* Adds an ethertype. */
static inline void pft_add_ether_protocol(struct pft_tree *tree, uint16_t ethertype)
{
    struct pft_record record = pft_record_of(PFT_KIND_ETHER_PROTOCOL, PFT_EITHER);

    record.a = ethertype;
    pft_add(tree, record);
}

#ifdef __cplusplus
}
#endif

#endif
