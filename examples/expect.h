/*
 * EXPECT(condition): where the condition does not hold, a line on standard error says where, and the program ends with
 * status 1.
 */
#ifndef EXPECT_H
#define EXPECT_H

#include <stdio.h>
#include <stdlib.h>

#define EXPECT(condition) expect(condition, #condition, __FILE__, __LINE__)

static void expect(int holds, const char *condition, const char *file, int line)
{
    if (holds)
        return;
    fprintf(stderr, "%s, line %d: not as expected: %s\n", file, line, condition);
    exit(EXIT_FAILURE);
}

#endif
