/*
 * A stand-in for libpft.a of another version, which refuses every call with a number that has no
 * word. Without VERSION it is an archive from before there was one; that of version 1 knows no
 * captures, those of 1 to 3 type no lines, and those of 1 to 4 answer no question.
 */
#include "pft.h"

#define REFUSAL 99u

#ifdef VERSION
uint32_t pft_version(void)
{
    return VERSION;
}
#endif

uint32_t pft_build(const uint8_t *tree, size_t tree_length, uint8_t *program, size_t program_length)
{
    (void)tree, (void)tree_length, (void)program, (void)program_length;
    return REFUSAL << 16;
}

uint32_t pft_run(const uint8_t *program, size_t program_length, const uint8_t *frame, size_t frame_length)
{
    (void)program, (void)program_length, (void)frame, (void)frame_length;
    return (256 + REFUSAL) << 16;
}

uint32_t pft_direct(const uint8_t *tree, size_t tree_length, const uint8_t *frame, size_t frame_length)
{
    (void)tree, (void)tree_length, (void)frame, (void)frame_length;
    return 256 + REFUSAL;
}

#if !defined VERSION || VERSION != 1
uint64_t pft_count(const uint8_t *tree, size_t tree_length, uint8_t *program, size_t program_length,
                   const uint8_t *capture, size_t capture_length)
{
    (void)tree, (void)tree_length, (void)program, (void)program_length, (void)capture, (void)capture_length;
    return (uint64_t)REFUSAL << 32;
}

uint64_t pft_frame(const uint8_t *capture, size_t capture_length, size_t at)
{
    (void)capture, (void)capture_length, (void)at;
    return (uint64_t)REFUSAL << 32;
}
#endif

#if !defined VERSION || VERSION < 1 || VERSION > 3
uint64_t pft_type(uint8_t link, const uint8_t *text, size_t text_length, uint8_t *tree)
{
    (void)link, (void)text, (void)text_length, (void)tree;
    return (uint64_t)REFUSAL << 32;
}
#endif

#if !defined VERSION || VERSION < 1 || VERSION > 4
uint32_t pft_question(const uint8_t *tree, size_t tree_length)
{
    (void)tree, (void)tree_length;
    return REFUSAL << 16;
}

uint32_t pft_load(const uint8_t *tree, size_t tree_length, uint32_t count, uint8_t *program, size_t program_length)
{
    (void)tree, (void)tree_length, (void)count, (void)program, (void)program_length;
    return REFUSAL << 16;
}
#endif
