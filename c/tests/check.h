/* Checks of test programs: what is wrong is printed, and counted. */
#ifndef CHECK_H
#define CHECK_H

#include <stdio.h>
#include <stdlib.h>

static int checked, wrong;

static void check_equal(const char *what, int line, long long got, long long wanted) {
    checked++;
    if (got == wanted)
        return;
    wrong++;
    fprintf(stderr, "line %d: %s is %lld, wanted %lld\n", line, what, got, wanted);
}

/* What was computed, and what it has to be. */
#define CHECK(got, wanted) check_equal(#got, __LINE__, (long long)(got), (long long)(wanted))

static int end_of_checks(const char *name) {
    printf("%s: %d checked, %d wrong\n", name, checked, wrong);
    return wrong != 0;
}

#endif
