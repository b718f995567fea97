/*
 * Counts the frames of captures that a tree accepts, and shows where they are:
 *
 *     count TREE CAPTURE...
 *
 * prints the count of instructions, then for each capture the accepted frames and how many they
 * are of all. Ends with 0, or with 1 where a file cannot be read or a call is refused.
 */
#include <errno.h>
#include <stdio.h>
#include <stdlib.h>
#include <string.h>

#include "pft.h"

struct file {
    const char *name;
    uint8_t *bytes;
    size_t length;
};

static uint8_t program[PFT_PROGRAM_MAX];
static size_t program_length;

/* Adds what is left of an open file to the bytes; 0 where that fails. */
static int read_rest(struct file *f, FILE *file)
{
    size_t room = 0, more;

    do {
        uint8_t *larger = (uint8_t *)realloc(f->bytes, room = 2 * room + 65536);

        if (larger == NULL)
            return 0;
        f->bytes = larger;
        more = fread(larger + f->length, 1, room - f->length, file);
        f->length += more;
    } while (f->length == room);
    return !ferror(file);
}

/* Reads a whole file; 0 where that fails. Its bytes are to be freed. */
static int read_file(struct file *f)
{
    FILE *file = fopen(f->name, "rb");
    int good = file != NULL && read_rest(f, file);

    if (!good)
        fprintf(stderr, "%s: %s\n", f->name, strerror(errno));
    if (file != NULL)
        fclose(file);
    return good;
}

static void print_refusal(const char *name, unsigned refusal)
{
    printf("%s: refused %u, %s\n", name, refusal, pft_refusal_word(refusal));
}

/* Builds the program; 0 where the tree is refused. */
static int build(const struct file *tree)
{
    uint32_t answer = pft_build(tree->bytes, tree->length, program, sizeof program);
    unsigned refusal = pft_build_refusal(answer);

    program_length = 8 * pft_build_count(answer);
    if (refusal != 0)
        print_refusal(tree->name, refusal);
    else
        printf("%s: %zu instructions\n", tree->name, pft_build_count(answer));
    return refusal == 0;
}

/* A line for each accepted frame, which is a piece of the capture; the number of all frames. */
static size_t list(const struct file *capture, struct pft_frames *frames)
{
    size_t all = 0;

    while (pft_next(frames)) {
        uint32_t answer = pft_run(program, program_length, frames->frame, frames->length);

        all++;
        if (pft_run_verdict(answer) == PFT_ACCEPTED)
            printf("%s: %zu bytes from byte %zu on\n", capture->name, frames->length,
                   (size_t)(frames->frame - capture->bytes));
    }
    return all;
}

/* The lines of a capture; 0 where it is refused. */
static int filter(const struct file *tree, const struct file *capture)
{
    struct pft_frames frames = pft_frames_of(capture->bytes, capture->length);
    uint64_t answer = pft_count(tree->bytes, tree->length, program, sizeof program, capture->bytes, capture->length);
    unsigned refusal = pft_count_refusal(answer);

    if (refusal == 0 || refusal == PFT_CUT_FRAME) {
        size_t all = list(capture, &frames);

        printf("%s: %u of %zu frames accepted\n", capture->name, (unsigned)pft_count_accepted(answer), all);
    }
    if (refusal == PFT_CUT_FRAME)
        printf("%s: refused %u, %s, at byte %zu\n", capture->name, refusal, pft_refusal_word(refusal), frames.at);
    else if (refusal != 0)
        print_refusal(capture->name, refusal);
    return refusal == 0;
}

int main(int argc, char **argv)
{
    struct file tree = {argv[1], NULL, 0};
    int i, good = 1;

    if (argc < 2) {
        fprintf(stderr, "usage: %s TREE CAPTURE...\n", argv[0]);
        return 1;
    }
    if (!pft_serves()) {
        fprintf(stderr, "libpft.a has version %u, at least %u is needed\n", (unsigned)pft_version(), PFT_VERSION);
        return 1;
    }
    good = read_file(&tree) && build(&tree);
    for (i = 2; i < argc && program_length > 0; i++) {
        struct file capture = {argv[i], NULL, 0};

        good &= read_file(&capture) && filter(&tree, &capture);
        free(capture.bytes);
    }
    free(tree.bytes);
    return !good;
}
