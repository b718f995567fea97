/*
 * Builds the program of a tree file and runs it over frames:
 *
 *     example TREE FRAME...
 *
 * prints the count, then for each frame its verdict, its steps and what the tree says of it read
 * directly. Ends with 0, or with 1 where a file cannot be read or a call is refused.
 */
#include <stdio.h>
#include <string.h>
#include <errno.h>

#include "pft.h"

/* One byte more than is taken, so that a longer file is seen as such. */
static uint8_t tree[PFT_TREE_MAX + 1];
static uint8_t program[PFT_PROGRAM_MAX];
static uint8_t frame[PFT_FRAME_MAX + 1];

/* Reads a file up to a size; 0 where that fails. */
static int read_file(const char *name, uint8_t *bytes, size_t size, size_t *length)
{
    FILE *file = fopen(name, "rb");
    int good;

    if (file == NULL) {
        fprintf(stderr, "%s: %s\n", name, strerror(errno));
        return 0;
    }
    *length = fread(bytes, 1, size, file);
    good = !ferror(file);
    if (!good)
        fprintf(stderr, "%s: cannot be read\n", name);
    fclose(file);
    return good;
}

static void print_refusal(const char *name, unsigned refusal)
{
    printf("%s: refused %u, %s\n", name, refusal, pft_refusal_word(refusal));
}

/* Builds the program of the tree; its count, or 0 where it is refused. */
static size_t build(const char *name, size_t tree_length)
{
    uint32_t answer = pft_build(tree, tree_length, program, sizeof program);

    if (pft_build_refusal(answer) != 0)
        print_refusal(name, pft_build_refusal(answer));
    else
        printf("%s: %zu instructions\n", name, pft_build_count(answer));
    return pft_build_count(answer);
}

/* One line for a frame; 0 where it is refused. */
static int filter(const char *name, size_t tree_length, size_t count, size_t length)
{
    uint32_t run = pft_run(program, 8 * count, frame, length);
    uint32_t direct = pft_direct(tree, tree_length, frame, length);

    if (pft_run_refusal(run) != 0) {
        print_refusal(name, pft_run_refusal(run));
        return 0;
    }
    printf("%s: %s, %u steps, read directly %s\n", name, pft_verdict_word(pft_run_verdict(run)),
           pft_run_steps(run), pft_direct_truth(direct) ? "true" : "false");
    return 1;
}

int main(int argc, char **argv)
{
    size_t tree_length, length, count;
    int i, good = 1;

    if (argc < 2) {
        fprintf(stderr, "usage: %s TREE FRAME...\n", argv[0]);
        return 1;
    }
    if (!pft_serves()) {
        fprintf(stderr, "libpft.a has version %u, at least %u is needed\n", (unsigned)pft_version(), PFT_VERSION);
        return 1;
    }
    if (!read_file(argv[1], tree, sizeof tree, &tree_length))
        return 1;
    count = build(argv[1], tree_length);
    if (count == 0)
        return 1;
    for (i = 2; i < argc; i++)
        good &= read_file(argv[i], frame, sizeof frame, &length) && filter(argv[i], tree_length, count, length);
    return !good;
}
