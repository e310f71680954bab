/* See check.h. */
#include "check.h"

#include <stdio.h>

enum { MOST_SHOWN = 20 }; /* failures printed */

const char *subject = "";

static unsigned long checks, failures;

void check_sheet(unsigned long number)
{
    static char which[32];
    snprintf(which, sizeof which, "sheet %lu", number);
    subject = which;
}

bool check(bool holds, const char *condition, const char *file, int line)
{
    checks++;
    if (holds)
        return true;
    if (failures++ < MOST_SHOWN)
        printf("%s:%d: not so: %s%s%s\n", file, line, condition, *subject ? ", of: " : "", subject);
    return false;
}

int report(const char *test)
{
    printf("%s: %lu checks, %lu failed\n", test, checks, failures);
    return failures != 0 || checks == 0;
}
