/*
 * Checks that print a line each, "ok" or "FAILED" and what was checked, and are counted.
 */
#ifndef INTEROP_CHECK_H
#define INTEROP_CHECK_H

/* What each line names first: the version that is being checked. */
extern const char *check_version_name;

void check(int holds, const char *format, ...);

/* Prints 'N passed, M failed'; answers the program's exit status, which is 1 as well where nothing was checked. */
int check_verdict(void);

#endif
