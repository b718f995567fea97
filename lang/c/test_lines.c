/*
 * Tests of pft_type, in the language that C and C++ share: the file of each line, and each refusal
 * with its place. Text and tree stand once at the end and once at the start of readable memory, and
 * all bytes of the tree are looked at.
 */
#define _DEFAULT_SOURCE /* mmap's MAP_ANONYMOUS */
#include <ucontext.h>

#include "pft.h"
#include "rooms.h"

enum { TEXT = FRAME, MOST_BRACKETS = 128, MOST_RECORDS = 128 };

static const uint8_t drive[4] = {10, 20, 0, 5};

/* ---- calls */

static uint8_t typed[PFT_TREE_MAX]; /* what the last call left */

/* The answer to a line's bytes. */
static uint64_t type_bytes(uint8_t link, const void *text, size_t length)
{
    uint64_t answers[2];
    int end;

    for (end = 0; end < 2; end++) {
        uint8_t *lent = lend(TEXT, length, end), *tree = lend(TREE, PFT_TREE_MAX, end);
        size_t written;

        memset(rooms[TREE], AROUND, ROOM);
        memset(tree, STALE, PFT_TREE_MAX);
        memcpy(lent, text, length);
        answers[end] = pft_type(link, lent, length, tree);
        written = pft_type_length(answers[end]);
        TEST(memcmp(lent, text, length) == 0);
        TEST(untouched_around(TREE, tree, PFT_TREE_MAX));
        TEST(written <= PFT_TREE_MAX && all_are(tree + written, PFT_TREE_MAX - written, 0));
        memcpy(typed, tree, PFT_TREE_MAX);
    }
    TEST(answers[0] == answers[1]);
    return answers[0];
}

static void refused_bytes(uint8_t link, const void *text, size_t length, unsigned refusal, size_t place, int line)
{
    uint64_t answer = type_bytes(link, text, length);

    test(answer == ((uint64_t)refusal << 32) + place, "the refusal and its place", line);
    test(pft_type_refusal(answer) == refusal && pft_type_place(answer) == place, "the answer's parts", line);
    test(pft_type_length(answer) == 0 && all_are(typed, PFT_TREE_MAX, 0), "no file", line);
}

/* A line, its refusal and its place. */
#define REFUSED(text, refusal, place) refused_bytes(PFT_ETHERNET, text, strlen(text), refusal, place, __LINE__)

static struct pft_tree wanted;
static struct pft_tree *const w = &wanted;

static void gives_wanted(const char *text, int line)
{
    uint64_t answer = type_bytes(PFT_ETHERNET, text, strlen(text));

    test(answer == wanted.length, "the file's length", line);
    test(pft_type_refusal(answer) == 0 && pft_type_place(answer) == 0, "the answer's parts", line);
    test(pft_type_length(answer) == wanted.length, "the answer's length", line);
    test(memcmp(typed, wanted.bytes, wanted.length) == 0, text, line);
}

/* A line, and what adds the records of its tree. */
#define GIVES(text, ...)              \
    do {                              \
        pft_start(w, PFT_ETHERNET);   \
        __VA_ARGS__;                  \
        gives_wanted(text, __LINE__); \
    } while (0)

/* Joins and conditions in shorter words. */
#define AND pft_add_and(w)
#define OR pft_add_or(w)
#define NOT pft_add_not(w)
#define IS(name) pft_add_protocol(w, PFT_##name)
#define PORT(direction, protocol, number) pft_add_port(w, PFT_##direction, PFT_##protocol, number)
#define HOST(direction) pft_add_host(w, PFT_##direction, drive)

/* ---- what a line gives */

static void protocols(void)
{
    GIVES("ip", IS(IP));
    GIVES("ip6", IS(IP6));
    GIVES("arp", IS(ARP));
    GIVES("rarp", IS(RARP));
    GIVES("tcp", IS(TCP));
    GIVES("udp", IS(UDP));
    GIVES("sctp", IS(SCTP));
    GIVES("icmp", IS(ICMP));
}

static void hosts_and_ports(void)
{
    GIVES("host 10.20.0.5", HOST(EITHER));
    GIVES("src host 10.20.0.5", HOST(SOURCE));
    GIVES("dst host 10.20.0.5", HOST(DESTINATION));
    GIVES("port 80", PORT(EITHER, NO_PROTOCOL, 80));
    GIVES("src port 80", PORT(SOURCE, NO_PROTOCOL, 80));
    GIVES("dst port 80", PORT(DESTINATION, NO_PROTOCOL, 80));
    GIVES("tcp port 80", PORT(EITHER, TCP, 80));
    GIVES("tcp src port 80", PORT(SOURCE, TCP, 80));
    GIVES("tcp dst port 80", PORT(DESTINATION, TCP, 80));
    GIVES("udp port 80", PORT(EITHER, UDP, 80));
    GIVES("udp src port 80", PORT(SOURCE, UDP, 80));
    GIVES("udp dst port 80", PORT(DESTINATION, UDP, 80));
    GIVES("sctp port 80", PORT(EITHER, SCTP, 80));
    GIVES("sctp src port 80", PORT(SOURCE, SCTP, 80));
    GIVES("sctp dst port 80", PORT(DESTINATION, SCTP, 80));
}

static void joins(void)
{
    GIVES("ip and udp", AND, IS(IP), IS(UDP));
    GIVES("ip or udp", OR, IS(IP), IS(UDP));
    GIVES("ip and udp and tcp", AND, AND, IS(IP), IS(UDP), IS(TCP));
    GIVES("ip or udp or tcp", OR, OR, IS(IP), IS(UDP), IS(TCP));
    GIVES("ip or udp and port 53", AND, OR, IS(IP), IS(UDP), PORT(EITHER, NO_PROTOCOL, 53));
    GIVES("ip and udp or tcp", OR, AND, IS(IP), IS(UDP), IS(TCP));
    GIVES("ip or ( udp and tcp )", OR, IS(IP), AND, IS(UDP), IS(TCP));
    GIVES("not ip and udp", AND, NOT, IS(IP), IS(UDP));
    GIVES("ip or not udp and tcp", AND, OR, IS(IP), NOT, IS(UDP), IS(TCP));
    GIVES("not ( ip and udp )", NOT, AND, IS(IP), IS(UDP));
    GIVES("not not ip", NOT, NOT, IS(IP));
    GIVES("( ( ip ) )", IS(IP));
    GIVES("tcp and port 80", AND, IS(TCP), PORT(EITHER, NO_PROTOCOL, 80));
    GIVES("( tcp ) and tcp port 80", AND, IS(TCP), PORT(EITHER, TCP, 80));
    GIVES("tcp and not dst port 80", AND, IS(TCP), NOT, PORT(DESTINATION, NO_PROTOCOL, 80));
    GIVES("  tcp   and not    dst port 80 ", AND, IS(TCP), NOT, PORT(DESTINATION, NO_PROTOCOL, 80));
}

/* ---- numbers */

/* Types a word behind another for Ethernet, without the rooms: for many of them. */
static uint64_t type_word(const char *before, const char *word)
{
    char line[80];
    int length = snprintf(line, sizeof line, "%s %s", before, word);

    TEST(length > 0 && (size_t)length < sizeof line);
    return pft_type(PFT_ETHERNET, (const uint8_t *)line, (size_t)length, typed);
}

static int is_unknown(const char *before, const char *word)
{
    return type_word(before, word) == ((uint64_t)PFT_UNKNOWN_WORD << 32) + strlen(before) + 1;
}

/* Every number up to 99,999: a port up to 65,535, with no zero before it. */
static void ports(void)
{
    char word[24];
    unsigned number, wrong = 0;

    for (number = 0; number < 100000; number++) {
        snprintf(word, sizeof word, "%u", number);
        if (number > 65535)
            wrong += !is_unknown("port", word);
        else
            wrong += type_word("port", word) != 32 || typed[8 + 4] * 256u + typed[8 + 5] != number;
        snprintf(word, sizeof word, "0%u", number);
        wrong += !is_unknown("port", word);
    }
    TEST(wrong == 0);
}

/* Numbers that are a port again where 16, 32 or 64 bits run over; and words that are no number. */
static void strange_ports(void)
{
    static const char *const words[] = {
        "65536", "65616", "131152", "4294967296", "4294967376", "18446744073709551616", "18446744073709551696",
        "99999999999999999999999999999999999999", "00", "080", "+80", "-80", "80.", ".80", "0x50", "80a", "http",
    };
    size_t i;

    for (i = 0; i < sizeof words / sizeof words[0]; i++)
        TEST(is_unknown("port", words[i]));
    REFUSED("port 8 0", PFT_UNFINISHED, 7);
}

/* Every number up to 999 in each of the four places, with and without a zero before it. */
static void addresses(void)
{
    static const char *const forms[4] = {"%s%u.2.3.4", "1.%s%u.3.4", "1.2.%s%u.4", "1.2.3.%s%u"};
    char word[24];
    unsigned i, number, wrong = 0;

    for (i = 0; i < 4; i++)
        for (number = 0; number < 1000; number++) {
            uint8_t address[4] = {1, 2, 3, 4};

            address[i] = (uint8_t)number;
            snprintf(word, sizeof word, forms[i], "", number);
            if (number > 255)
                wrong += !is_unknown("host", word);
            else
                wrong += type_word("host", word) != 32 || memcmp(typed + 8 + 8, address, 4) != 0;
            snprintf(word, sizeof word, forms[i], "0", number);
            wrong += !is_unknown("host", word);
        }
    TEST(wrong == 0);
}

static void strange_addresses(void)
{
    static const char *const words[] = {
        "1.2.3", "1.2.3.", ".1.2.3", "1.2.3.4.", "1.2.3.4.5", "1..3.4", "1.2.3..4", "...", ".", "1.2.3.4294967300",
        "1.2.3.18446744073709551620", "4294967297.2.3.4", "1,2,3,4", "1.2.3.4/32", "1.2.3.a", "1.2.3.-4", "::1", "drive",
    };
    size_t i;

    for (i = 0; i < sizeof words / sizeof words[0]; i++)
        TEST(is_unknown("host", words[i]));
}

/* ---- what is refused, and where */

static void unknown_words(void)
{
    REFUSED("prot 80", PFT_UNKNOWN_WORD, 0);
    REFUSED("tcp and prot 80", PFT_UNKNOWN_WORD, 8);
    REFUSED("  TCP", PFT_UNKNOWN_WORD, 2);
    REFUSED("tc", PFT_UNKNOWN_WORD, 0);
    REFUSED("tcpp", PFT_UNKNOWN_WORD, 0);
    REFUSED("(ip)", PFT_UNKNOWN_WORD, 0);
    REFUSED("( ip)", PFT_UNKNOWN_WORD, 2);
    REFUSED("((", PFT_UNKNOWN_WORD, 0);
    REFUSED("! ip", PFT_UNKNOWN_WORD, 0);
    REFUSED("ip && udp", PFT_UNKNOWN_WORD, 3);
    REFUSED("icmp6", PFT_UNKNOWN_WORD, 0);
    REFUSED("net 10.0.0.0/8", PFT_UNKNOWN_WORD, 0);
    REFUSED("ip\tand udp", PFT_UNKNOWN_WORD, 0);
    REFUSED("ip and udp\n", PFT_UNKNOWN_WORD, 7);
}

static void unfinished_lines(void)
{
    REFUSED("", PFT_UNFINISHED, 0);
    REFUSED("   ", PFT_UNFINISHED, 3);
    REFUSED("and", PFT_UNFINISHED, 0);
    REFUSED("ip and", PFT_UNFINISHED, 6);
    REFUSED("ip and  ", PFT_UNFINISHED, 8);
    REFUSED("ip udp", PFT_UNFINISHED, 3);
    REFUSED("ip and or udp", PFT_UNFINISHED, 7);
    REFUSED("ip not udp", PFT_UNFINISHED, 3);
    REFUSED("not", PFT_UNFINISHED, 3);
    REFUSED("(", PFT_UNFINISHED, 1);
    REFUSED("( )", PFT_UNFINISHED, 2);
    REFUSED("ip )", PFT_UNFINISHED, 3);
    REFUSED("( ip", PFT_UNFINISHED, 4);
    REFUSED("( ip ) ( udp )", PFT_UNFINISHED, 7);
    REFUSED("host", PFT_UNFINISHED, 4);
    REFUSED("host 80", PFT_UNFINISHED, 5);
    REFUSED("port 1.2.3.4", PFT_UNFINISHED, 5);
    REFUSED("port 80 or 443", PFT_UNFINISHED, 11);
    REFUSED("10.20.0.5", PFT_UNFINISHED, 0);
    REFUSED("src 10.20.0.5", PFT_UNFINISHED, 4);
    REFUSED("src or dst port 80", PFT_UNFINISHED, 4);
    REFUSED("src tcp port 80", PFT_UNFINISHED, 4);
    REFUSED("tcp 80", PFT_UNFINISHED, 4);
    REFUSED("tcp host 10.20.0.5", PFT_UNFINISHED, 4);
    REFUSED("tcp src host 10.20.0.5", PFT_UNFINISHED, 8);
    REFUSED("icmp port 80", PFT_UNFINISHED, 5);
    REFUSED("ip host 10.20.0.5", PFT_UNFINISHED, 3);
}

/* The earliest place wins; at one place 16 does. */
static void in_order(void)
{
    REFUSED("ip udp prot", PFT_UNFINISHED, 3);
    REFUSED("ip prot udp tcp", PFT_UNKNOWN_WORD, 3);
    REFUSED("host 300.1.1.1", PFT_UNKNOWN_WORD, 5);
    REFUSED("ip 300.1.1.1", PFT_UNKNOWN_WORD, 3);
    REFUSED("port 65536", PFT_UNKNOWN_WORD, 5);
    REFUSED("port 080", PFT_UNKNOWN_WORD, 5);
}

/* Every link's byte: one that is none comes before what stands in the line. */
static void links(void)
{
    unsigned link;

    for (link = 0; link < 256; link++)
        if (link >= PFT_ETHERNET && link <= PFT_LINUX_SLL) {
            TEST(type_bytes((uint8_t)link, "ip", 2) == 32 && typed[5] == link);
            refused_bytes((uint8_t)link, "prot", 4, PFT_UNKNOWN_WORD, 0, __LINE__);
        } else {
            refused_bytes((uint8_t)link, "ip", 2, PFT_STRANGE_FILE, 0, __LINE__);
            refused_bytes((uint8_t)link, "ip prot", 7, PFT_STRANGE_FILE, 0, __LINE__);
            refused_bytes((uint8_t)link, "", 0, PFT_STRANGE_FILE, 0, __LINE__);
        }
}

/* Each byte alone, and behind a word: no byte but the space separates, and none ends a line. */
static void every_byte(void)
{
    unsigned byte;

    for (byte = 0; byte < 256; byte++) {
        uint8_t line[4] = {'i', 'p', ' ', 0};
        int known = byte == '(' || byte == ')' || (byte >= '0' && byte <= '9');
        unsigned refusal = known || byte == ' ' ? PFT_UNFINISHED : PFT_UNKNOWN_WORD;

        line[3] = (uint8_t)byte;
        refused_bytes(PFT_ETHERNET, line + 3, 1, refusal, byte == '(' || byte == ' ' ? 1 : 0, __LINE__);
        if (byte == ' ')
            TEST(type_bytes(PFT_ETHERNET, line, 4) == 32);
        else
            refused_bytes(PFT_ETHERNET, line, 4, refusal, 3, __LINE__);
    }
    refused_bytes(PFT_ETHERNET, "ip\0", 3, PFT_UNKNOWN_WORD, 0, __LINE__);
    refused_bytes(PFT_ETHERNET, "ip \0and ip", 10, PFT_UNKNOWN_WORD, 3, __LINE__);
    refused_bytes(PFT_ETHERNET, "ip and \xff\x80", 9, PFT_UNKNOWN_WORD, 7, __LINE__);
}

/* A line of which the first bytes alone are lent: it ends with each of them. */
static void cut_lines(void)
{
    static const char line[] = "tcp port 80";

    TEST(type_bytes(PFT_ETHERNET, line, 3) == 32 && typed[8] == PFT_KIND_PROTOCOL);
    TEST(type_bytes(PFT_ETHERNET, line, 4) == 32 && typed[8] == PFT_KIND_PROTOCOL);
    refused_bytes(PFT_ETHERNET, line, 7, PFT_UNKNOWN_WORD, 4, __LINE__);
    refused_bytes(PFT_ETHERNET, line, 8, PFT_UNFINISHED, 8, __LINE__);
    TEST(type_bytes(PFT_ETHERNET, line, 10) == 32 && typed[8 + 5] == 8);
    TEST(type_bytes(PFT_ETHERNET, line, 11) == 32 && typed[8 + 5] == 80);
}

/* No bytes: NULL, and a pointer to memory that cannot be read. */
static void no_bytes(void)
{
    const uint8_t *nowhere = rooms[TEXT] + ROOM;

    memset(typed, STALE, sizeof typed);
    TEST(pft_type(PFT_ETHERNET, NULL, 0, typed) == (uint64_t)PFT_UNFINISHED << 32);
    TEST(all_are(typed, PFT_TREE_MAX, 0));
    TEST(pft_type(PFT_ETHERNET, nowhere, 0, typed) == (uint64_t)PFT_UNFINISHED << 32);
    TEST(pft_type(0, NULL, 0, typed) == (uint64_t)PFT_STRANGE_FILE << 32);
}

/* ---- large lines */

static char text[ROOM];
static size_t text_length;

static void add_text(const char *words, size_t times)
{
    for (; times > 0; times--, text_length += strlen(words)) {
        TEST(text_length + strlen(words) < sizeof text);
        memcpy(text + text_length, words, strlen(words) + 1);
    }
}

/* A text so many times, another, and a third so many times. */
static const char *nested(const char *before, const char *middle, const char *after, size_t times)
{
    text_length = 0;
    add_text(before, times);
    add_text(middle, 1);
    add_text(after, times);
    return text;
}

static void most_records(void)
{
    int i;

    pft_start(w, PFT_ETHERNET);
    for (i = 1; i < MOST_RECORDS; i++)
        NOT;
    IS(IP);
    gives_wanted(nested("not ", "ip", "", MOST_RECORDS - 1), __LINE__);
    TEST(wanted.length == PFT_TREE_MAX);
    REFUSED(nested("not ", "ip", "", MOST_RECORDS), PFT_TOO_LARGE, 0);
    REFUSED(nested("not ", "ip", "", 10000), PFT_TOO_LARGE, 0);
    nested("udp or ", "ip", "", 63);
    TEST(type_bytes(PFT_ETHERNET, text, text_length) == 8 + 24 * 127);
    REFUSED(nested("udp or ", "ip", "", 64), PFT_TOO_LARGE, 0);
    REFUSED(nested("udp or ", "not ip", "", 64), PFT_TOO_LARGE, 0);
}

static void most_brackets(void)
{
    GIVES(nested("( ", "ip", " )", MOST_BRACKETS), IS(IP));
    REFUSED(nested("( ", "ip", " )", MOST_BRACKETS + 1), PFT_TOO_LARGE, 0);
    REFUSED(nested("( ", "ip", " )", 10000), PFT_TOO_LARGE, 0);
    nested("( ", "ip", " )", MOST_BRACKETS);
    add_text(" or ", 1);
    add_text("( ", MOST_BRACKETS);
    add_text("udp", 1);
    add_text(" )", MOST_BRACKETS);
    GIVES(text, OR, IS(IP), IS(UDP));
}

/* What is refused with 16 or 17 is so in a large line too, with its place. */
static void before_too_large(void)
{
    nested("not ", "ip", "", 200);
    add_text(" prot", 1);
    REFUSED(text, PFT_UNKNOWN_WORD, 803);
    nested("not ", "ip", "", 200);
    add_text(" udp", 1);
    REFUSED(text, PFT_UNFINISHED, 803);
    REFUSED(nested("not ", "", "", 200), PFT_UNFINISHED, 800);
    REFUSED(nested("( ", "ip", "", 200), PFT_UNFINISHED, 402);
    REFUSED(nested(" ", "ip udp", "", 60000), PFT_UNFINISHED, 60003);
}

/* The largest lines on a stack of PFT_STACK bytes. */

static ucontext_t here, there;
static uint64_t small_stack_answer;

static void type_text(void)
{
    small_stack_answer = pft_type(PFT_ETHERNET, (const uint8_t *)text, text_length, typed);
}

static uint64_t on_small_stack(uint8_t *stack)
{
    TEST(getcontext(&there) == 0);
    there.uc_stack.ss_sp = stack;
    there.uc_stack.ss_size = PFT_STACK;
    there.uc_link = &here;
    makecontext(&there, type_text, 0);
    TEST(swapcontext(&here, &there) == 0);
    return small_stack_answer;
}

static void small_stack(void)
{
    uint8_t *stack = make_room(PFT_STACK);

    nested("not ", "ip", "", MOST_RECORDS - 1);
    TEST(on_small_stack(stack) == PFT_TREE_MAX);
    nested("( ", "ip", " )", 10000);
    TEST(on_small_stack(stack) == (uint64_t)PFT_TOO_LARGE << 32);
}

/* ---- a file that is typed is one */

static uint8_t program[PFT_PROGRAM_MAX];

/* From a line to a verdict: IPv4 alone is Tcp, and a port is not SCTP's. */
static void verdicts(void)
{
    static const struct {
        const char *line;
        uint8_t protocol;
        unsigned verdict;
    } rows[] = {
        {"tcp and port 80", 6, PFT_ACCEPTED},       {"tcp and port 80", 17, PFT_DROPPED},
        {"port 80", 17, PFT_ACCEPTED},              {"port 80", 132, PFT_DROPPED},
        {"sctp port 80", 132, PFT_ACCEPTED},        {"not port 80", 132, PFT_ACCEPTED},
        {"dst port 80 and src port 0", 6, PFT_ACCEPTED}, {"host 10.20.0.5", 1, PFT_DROPPED},
    };
    uint8_t frame[78] = {0};
    size_t i;

    frame[12] = 8, frame[14] = 0x45, frame[37] = 80;
    for (i = 0; i < sizeof rows / sizeof rows[0]; i++) {
        uint32_t answer, direct;

        TEST(pft_type_refusal(pft_type_tree(w, PFT_ETHERNET, rows[i].line)) == 0);
        frame[23] = rows[i].protocol;
        answer = pft_build(w->bytes, w->length, program, sizeof program);
        answer = pft_run(program, 8 * pft_build_count(answer), frame, sizeof frame);
        direct = pft_direct(w->bytes, w->length, frame, sizeof frame);
        TEST(pft_run_verdict(answer) == rows[i].verdict);
        TEST(pft_direct_truth(direct) == (rows[i].verdict == PFT_ACCEPTED));
    }
}

/* pft_type_tree: the file and its length; after a refusal there is none. */
static void trees(void)
{
    uint64_t answer = pft_type_tree(w, PFT_RAW_IP, "not udp");

    TEST(answer == 56 && wanted.length == 56 && wanted.bytes[5] == PFT_RAW_IP && wanted.bytes[8] == PFT_KIND_NOT);
    answer = pft_type_tree(w, PFT_RAW_IP, "not upd");
    TEST(answer == ((uint64_t)PFT_UNKNOWN_WORD << 32) + 4 && wanted.length == 0);
    TEST(all_are(wanted.bytes, PFT_TREE_MAX, 0));
    answer = pft_build(w->bytes, w->length, program, sizeof program);
    TEST(pft_build_refusal((uint32_t)answer) == PFT_STRANGE_FILE);
}

static void words(void)
{
    TEST(PFT_UNKNOWN_WORD == 16 && strcmp(pft_refusal_word(16), "unknown word") == 0);
    TEST(PFT_UNFINISHED == 17 && strcmp(pft_refusal_word(17), "unfinished") == 0);
    TEST(PFT_TOO_LARGE == 18 && strcmp(pft_refusal_word(18), "too large") == 0);
    TEST(pft_type_place(((uint64_t)PFT_UNFINISHED << 32) + 0xffffffffu) == 0xffffffffu);
    TEST(pft_type_length(PFT_TREE_MAX) == PFT_TREE_MAX && pft_type_place(PFT_TREE_MAX) == 0);
}

int main(void)
{
    make_rooms();
    protocols();
    hosts_and_ports();
    joins();
    ports();
    strange_ports();
    addresses();
    strange_addresses();
    unknown_words();
    unfinished_lines();
    in_order();
    links();
    every_byte();
    cut_lines();
    no_bytes();
    most_records();
    most_brackets();
    before_too_large();
    small_stack();
    verdicts();
    trees();
    words();
    printf("%u tests passed\n", tests);
    return 0;
}
