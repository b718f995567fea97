/*
 * Runs a filter that is typed over frames:
 *
 *     typed LINK LINE FRAME...
 *
 * LINK is ethernet, raw or cooked. Prints the count of instructions, then a verdict for each frame; or
 * the line with a mark under the place where it is refused, and what could follow there. Ends with 0,
 * or with 1 where a file cannot be read or something is refused.
 */
#include <errno.h>
#include <stdio.h>
#include <stdlib.h>
#include <string.h>

#include "pft.h"

/* How many characters of a line are shown, and what stands where it is cut. */
enum { SHOWN = 72 };
static const char cut[] = "...";

static struct pft_tree tree;
static uint8_t program[PFT_PROGRAM_MAX];
/* One byte more than is taken, so that a longer frame is seen as such. */
static uint8_t frame[PFT_FRAME_MAX + 1];

/* ---- what could follow */

/* What may stand in a line, in the order in which it is told, and what is typed to ask for it. */
static const struct follower {
    const char *told, *typed;
} followers[] = {
    {"ip", "ip"},     {"ip6", "ip6"},   {"arp", "arp"},   {"rarp", "rarp"},
    {"icmp", "icmp"}, {"tcp", "tcp"},   {"udp", "udp"},   {"sctp", "sctp"},
    {"host", "host"}, {"port", "port"}, {"src", "src"},   {"dst", "dst"},
    {"(", "("},       {")", ")"},       {"not", "not"},   {"and", "and"},
    {"or", "or"},     {"an address", "0.0.0.0"},          {"a port number", "0"},
};
enum { FOLLOWERS = sizeof followers / sizeof followers[0], LONGEST = 7 };

/* Whether a word can follow a line's start of so many bytes, behind which there is room for it. */
static int can_follow(enum pft_link link, char *start, size_t length, const char *word)
{
    size_t place = length + 1;
    uint64_t answer;

    start[length] = ' ';
    memcpy(start + place, word, strlen(word) + 1);
    answer = pft_type_tree(&tree, link, start);
    return pft_type_refusal(answer) != PFT_UNFINISHED || pft_type_place(answer) != place;
}

/* Whether the line can end behind its start. */
static int can_end(enum pft_link link, char *start, size_t length)
{
    unsigned refusal;

    start[length] = '\0';
    refusal = pft_type_refusal(pft_type_tree(&tree, link, start));
    return refusal == 0 || refusal == PFT_TOO_LARGE;
}

/* Words with spaces between, and what is told in more words behind a comma. */
static void tell(const char *told, int first)
{
    printf("%s%s", first ? "; here could follow: " : strchr(told, ' ') != NULL ? ", " : " ", told);
}

static void tell_followers(enum pft_link link, const char *line, size_t place)
{
    char *start = (char *)malloc(place + 1 + LONGEST + 1);
    int i, first = 1;

    if (start == NULL)
        return;
    memcpy(start, line, place);
    for (i = 0; i < FOLLOWERS; i++)
        if (can_follow(link, start, place, followers[i].typed)) {
            tell(followers[i].told, first);
            first = 0;
        }
    if (can_end(link, start, place))
        tell("the end", first);
    free(start);
}

/* ---- a refused line */

/* The code of the character of UTF-8 that a text starts with, and its length; or 0 and one byte. */
static uint32_t character(const char *text, size_t *size)
{
    /* By the upper five bits of its first byte; and the least code of each. */
    static const uint8_t lengths[32] = {1, 1, 1, 1, 1, 1, 1, 1, 1, 1, 1, 1, 1, 1, 1, 1,
                                        0, 0, 0, 0, 0, 0, 0, 0, 2, 2, 2, 2, 3, 3, 4, 0};
    static const uint32_t least[5] = {0, 0, 0x80, 0x800, 0x10000};
    const uint8_t *bytes = (const uint8_t *)text;
    size_t i, length = lengths[bytes[0] >> 3];
    uint32_t code = bytes[0] & (length == 1 ? 0x7fu : 0x7fu >> length);

    *size = 1;
    for (i = 1; i < length; i++) {
        if (bytes[i] >> 6 != 2)
            return 0;
        code = code << 6 | (bytes[i] & 0x3fu);
    }
    if (length == 0 || code < least[length] || code > 0x10ffff || (code >= 0xd800 && code < 0xe000))
        return 0;
    *size = length;
    return code;
}

static size_t characters(const char *text)
{
    size_t count = 0, size;

    for (; *text != '\0'; text += size, count++)
        character(text, &size);
    return count;
}

/* Prints so many characters of a text; one that controls a terminal, or is none, as `?`. */
static void print_characters(const char *text, size_t count)
{
    size_t size;

    for (; *text != '\0' && count > 0; text += size, count--) {
        uint32_t code = character(text, &size);

        if (code < 0x20 || (code >= 0x7f && code < 0xa0))
            putchar('?');
        else
            printf("%.*s", (int)size, text);
    }
}

/* The line and a mark under the place. What stands before it are words: a byte is a character. */
static void print_mark(const char *line, size_t place)
{
    size_t count = characters(line), start = place > SHOWN / 2 ? place - SHOWN / 2 : 0;

    if (start + SHOWN > count)
        start = count > SHOWN ? count - SHOWN : 0;
    fputs(start > 0 ? cut : "", stdout);
    print_characters(line + start, SHOWN);
    puts(start + SHOWN < count ? cut : "");
    printf("%*s\n", (int)(place - start + (start > 0 ? strlen(cut) : 0) + 1), "^");
}

/* Types the line; 0 where it is refused. */
static int type(enum pft_link link, const char *line)
{
    uint64_t answer = pft_type_tree(&tree, link, line);
    unsigned refusal = pft_type_refusal(answer);
    size_t place = pft_type_place(answer);

    if (refusal == 0)
        return 1;
    if (refusal != PFT_UNKNOWN_WORD && refusal != PFT_UNFINISHED) { /* it has no place */
        printf("refused %u, %s\n", refusal, pft_refusal_word(refusal));
        return 0;
    }
    print_mark(line, place);
    printf("refused %u, %s, at byte %zu", refusal, pft_refusal_word(refusal), place);
    tell_followers(link, line, place);
    puts("");
    return 0;
}

/* ---- frames */

/* Builds the program; its length in bytes, or 0 where the tree is refused. */
static size_t build(const char *line)
{
    uint32_t answer = pft_build(tree.bytes, tree.length, program, sizeof program);
    unsigned refusal = pft_build_refusal(answer);

    if (refusal != 0)
        printf("%s: refused %u, %s\n", line, refusal, pft_refusal_word(refusal));
    else
        printf("%s: %zu instructions\n", line, pft_build_count(answer));
    return 8 * pft_build_count(answer);
}

/* A line for a frame; 0 where it cannot be read or is refused. */
static int filter(const char *name, size_t program_length)
{
    FILE *file = fopen(name, "rb");
    uint32_t answer;

    if (file == NULL) {
        printf("%s: %s\n", name, strerror(errno));
        return 0;
    }
    answer = pft_run(program, program_length, frame, fread(frame, 1, sizeof frame, file));
    fclose(file);
    if (pft_run_refusal(answer) != 0)
        printf("%s: refused %u, %s\n", name, pft_run_refusal(answer), pft_refusal_word(pft_run_refusal(answer)));
    else
        printf("%s: %s\n", name, pft_verdict_word(pft_run_verdict(answer)));
    return pft_run_refusal(answer) == 0;
}

/* The link of a name, or 0. */
static int link_of(const char *name)
{
    static const char *const names[] = {"ethernet", "raw", "cooked"};
    int i;

    for (i = 0; i < 3; i++)
        if (strcmp(name, names[i]) == 0)
            return i + PFT_ETHERNET;
    return 0;
}

int main(int argc, char **argv)
{
    int i, good = 1, link = argc < 3 ? 0 : link_of(argv[1]);
    size_t length;

    if (link == 0) {
        fprintf(stderr, "usage: %s ethernet|raw|cooked LINE FRAME...\n", argv[0]);
        return 1;
    }
    if (!pft_serves()) {
        fprintf(stderr, "libpft.a has version %u, at least %u is needed\n", (unsigned)pft_version(), PFT_VERSION);
        return 1;
    }
    if (!type((enum pft_link)link, argv[2]))
        return 1;
    length = build(argv[2]);
    for (i = 3; i < argc && length > 0; i++)
        good &= filter(argv[i], length);
    return !good || length == 0;
}
