/* Checks, counted; those that fail are printed. */
#ifndef CHECK_H
#define CHECK_H

#include <stdbool.h>

#define CHECK(condition) check((condition), #condition, __FILE__, __LINE__)

/* Answers whether it holds. */
bool check(bool holds, const char *condition, const char *file, int line);

/* What is under test, printed with a failure. */
extern const char *subject;

/* That is the sheet of this number. */
void check_sheet(unsigned long number);

/* Prints the counts. Answers what main returns. */
int report(const char *test);

#endif
