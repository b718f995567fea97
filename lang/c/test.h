/* What the tests share: a test that fails ends the process. */
#ifndef TEST_H
#define TEST_H

#include <stdio.h>
#include <stdlib.h>

static unsigned tests;

static void test(int good, const char *what, int line)
{
    tests++;
    if (good)
        return;
    printf("line %d: %s\n", line, what);
    exit(1);
}

#define TEST(condition) test(condition, #condition, __LINE__)

#endif
