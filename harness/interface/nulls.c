/* Empty slices whose pointers are null. */
#include <stdio.h>

#include "empty.h"

int main(void)
{
    struct empty nulls = {NULL, NULL, NULL, NULL, NULL};
    compare_with(&nulls);
    printf("null pointers with length 0 are answered as others are\n");
    return 0;
}
