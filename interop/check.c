#include "check.h"

#include <stdarg.h>
#include <stdio.h>

const char *check_version_name = "";

static unsigned passed;
static unsigned failed;

void check(int holds, const char *format, ...)
{
    va_list values;
    printf("%s %s: ", holds ? "ok" : "FAILED", check_version_name);
    va_start(values, format);
    vprintf(format, values);
    va_end(values);
    putchar('\n');
    if (holds)
        passed++;
    else
        failed++;
}

int check_verdict(void)
{
    printf("%u passed, %u failed\n", passed, failed);
    return failed == 0 && passed > 0 ? 0 : 1;
}
