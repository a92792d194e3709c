/* The marks that the calls leave on the painted stack. At the end of the process they go, as a table, to the file that the environment
 * names in STACK_MARKS. */
#include <inttypes.h>
#include <stdio.h>
#include <stdlib.h>

#include "meter.h"

extern struct stack_mark stack_marks[], stack_marks_end[]; /* in meter.S, sorted by name */

size_t stack_painted = 64 << 10;
static __thread size_t last;

void stack_measure(struct stack_mark *mark, const char *top);

size_t stack_last_mark(void)
{
    return last;
}

/* How many bytes lie between the lowest word that is not as it was painted and the end of the caller's frame. */
static size_t bytes_kept(const char *top)
{
    const uint64_t *word = (const uint64_t *)(top - stack_painted);
    while (*word == STACK_PAINT)
        word++;
    return (size_t)(top - (const char *)word);
}

/* The threads share the table. */
static void note(struct stack_mark *mark, uint64_t kept)
{
    uint64_t greatest = __atomic_load_n(&mark->greatest, __ATOMIC_RELAXED);
    while (kept > greatest
           && !__atomic_compare_exchange_n(&mark->greatest, &greatest, kept, 0, __ATOMIC_RELAXED, __ATOMIC_RELAXED))
        continue;
    __atomic_fetch_add(&mark->calls, 1, __ATOMIC_RELAXED);
}

/* Comes after each call, with its mark and the end of the caller's frame. */
void stack_measure(struct stack_mark *mark, const char *top)
{
    last = bytes_kept(top);
    if (last > stack_painted / 2) {
        fprintf(stderr, "%s keeps more than the %zu bytes of stack that can be told\n", mark->name, stack_painted / 2);
        _Exit(1);
    }
    note(mark, last);
}

__attribute__((destructor)) static void print_marks(void)
{
    const char *path = getenv("STACK_MARKS");
    if (path == NULL)
        return;
    FILE *file = fopen(path, "w");
    if (file == NULL) {
        perror(path);
        _Exit(1);
    }
    fprintf(file, "| call | bytes | calls |\n|--|--|--|\n");
    for (const struct stack_mark *mark = stack_marks; mark != stack_marks_end; mark++)
        fprintf(file, "| %s | %" PRIu64 " | %" PRIu64 " |\n", mark->name, mark->greatest, mark->calls);
    if (fclose(file) != 0) {
        perror(path);
        _Exit(1);
    }
}
