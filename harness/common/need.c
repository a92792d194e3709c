#include <stdio.h>
#include <stdlib.h>

#include "need.h"

void need(int holds, const char *what)
{
    if (holds)
        return;
    fprintf(stderr, "failed: %s\n", what);
    exit(1);
}
