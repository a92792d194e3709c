/* Every call with each of its slices empty, one after the other and all at once. */
#ifndef EMPTY_H
#define EMPTY_H

#include "hdf4.h"

#ifdef __cplusplus
extern "C" {
#endif

/* Where empty slices point to: null, or a memory that is not to be read or written. */
struct empty {
    uint8_t *bytes;
    uint16_t *shorts;
    uint32_t *longs;
    uint64_t *numbers;
    hdf4_field *fields;
};

/* The numbers of all answers, one after the other. */
struct answers {
    uint64_t numbers[1000];
    size_t count;
};

/* Makes the calls. Each must answer the number that is written down for it. */
void call_all(const struct empty *empty, struct answers *answers);

/* Ends the program where the calls answer otherwise for these slices than for such as point to a memory of their own. */
void compare_with(const struct empty *empty);

#ifdef __cplusplus
}
#endif

#endif
