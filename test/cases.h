/* What the files of the host's test share. */
#ifndef CASES_H
#define CASES_H

/* counts a case as passed or failed, and names it where it failed */
void expect(const char *name, int ok);

/* the cases of test/stacks.c; with figures, how much each function took is printed too */
void stack_cases(int figures);

#endif
