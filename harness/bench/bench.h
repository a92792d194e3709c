/* What the parts of the benchmark, and its two programs, share. */
#ifndef BENCH_H
#define BENCH_H

#include <stddef.h>
#include <stdint.h>

#include "bytes.h"
#include "need.h"

#define COUNT(list) ((int)(sizeof(list) / sizeof((list)[0])))

/* What an element is found by. */
struct pair {
    uint16_t tag, reference;
};

/* ---- Files (files.c) ---- */

#define TAG 1000
#define FIRST_REFERENCE 2 /* libhdf4 takes 1 for its version */
#define ELEMENT_BYTES 24
#define MOST_SLOTS 4096

enum order { ASCENDING, SHUFFLED, DESCENDING, ORDERS };
extern const char *const order_names[ORDERS];

/* How many slots a file has, and how many of them are in a block. */
enum { SIZES = 6 };
struct size {
    int slots, per_block;
};
extern const struct size sizes[SIZES];

/* Shuffles numbers, in the same way in every run. */
void shuffle(uint16_t *numbers, int count);

/* A file that libhdf4 wrote: its path, and its bytes at the front of a buffer. */
struct file {
    char path[4096];
    uint8_t *buffer;
    size_t capacity, length;
    int slots, live;
    int elements; /* in a file of plain elements: their references go from FIRST_REFERENCE on, one each */
};

/* Names a file, which need not be there yet. */
struct file file_named(const char *folder, const char *name, int elements);

/* Reads a file that is there now, and opens it with our library. */
void load(struct file *file);

/* Writes plain elements with libhdf4, in blocks of so many slots. All slots but one are live. */
void write_elements(const char *path, int slots, int per_block, enum order order);

/* Makes a file of them, and opens it with our library. */
struct file make_file(const char *folder, const char *name, int slots, int per_block, enum order order);

/* Writes a file of one element with libhdf4. */
struct file make_large_file(const char *folder, const char *name, size_t size);

/* How many linked blocks an element has, how many bytes each of them has, and how many of them a table names. */
struct parts {
    int blocks, bytes, per_table;
};

/* Writes a file of one element in linked blocks with libhdf4. */
struct file make_linked_file(const char *folder, const char *name, const struct parts *parts);

/* Gives memory with the bytes that both of these files have in their element. */
uint8_t *new_contents(size_t size);

/* What a file is an example of: what programs write through the interfaces; plain elements whose references ascend, also from tag
 * to tag and where they start anew; slots that are freed and used again; references in no order. */
enum example { BY_INTERFACE, IN_ORDER, USED_AGAIN, IN_NO_ORDER, EXAMPLES };

/* How a file is written: its name, what it holds in words, the call that writes it, and how many elements that call gets. */
struct recipe {
    const char *name, *words;
    enum example example;
    void (*write)(const char *path, int count);
    int count;
};

/* Files of the interfaces (written.c), and of plain elements (slots.c). The last entry of both has no name. */
extern const struct recipe interface_files[], slot_files[];

/* Writes a file with libhdf4, and opens it with our library. */
struct file make_by(const char *folder, const struct recipe *recipe);

/* Reads a whole file to the front of a buffer with one read. Gives its length. */
size_t read_file(const char *path, uint8_t *buffer, size_t capacity);

/* Writes bytes to a new file. */
void write_file(const char *path, const uint8_t *bytes, size_t length);

/* Writes a copy of a file beside it, and its path to a lent string. */
void copy_file(const struct file *file, const char *suffix, char *path, size_t room);

/* Removes a file and gives its memory back. */
void free_file(struct file *file);

/* ---- Images of the largest directory (images.c) ---- */

/* Where the blocks stand in the file: each behind the one before it in the chain; from the last place down; or in no order.
 * The first one stands first in all three. */
enum chain { RISING, FALLING, SCRAMBLED, CHAINS };
extern const char *const chain_names[CHAINS];

/* Where the elements stand: behind the block of their own slot, or behind any. */
enum spread { BEHIND_OWN, SCATTERED, SPREADS };
extern const char *const spread_names[SPREADS];

/* Gives tag and reference of a slot that is so many slots behind the chain's first. */
typedef struct pair pairing(int slot);

/* One tag, and references that ascend along the chain. */
struct pair ascending_pair(int slot);

/* Makes an image of 256 blocks of 16 slots, all live. */
struct image make_image(enum chain chain, enum spread spread, pairing *pairs);

/* ---- Images of an element in linked blocks (linked.c) ---- */

/* The references of tables and blocks: 1, 2, 3 and so on, a table before its blocks, as a library hands them out that appends;
 * or 1, 252, 503 and so on for the tables, and the lowest free ones for the blocks. The library marks a table that it has read
 * by its reference modulo 251, and searches the earlier ones for a table whose mark is set. */
enum numbering { APPENDED, EQUAL_MODULO, NUMBERINGS };
extern const char *const numbering_names[NUMBERINGS];

/* How many tables an element has, how many blocks each of them names, and the references of both. */
struct links {
    enum numbering numbering;
    int tables, per_table;
};

/* How many blocks there are in all. Each has ELEMENT_BYTES. */
int blocks_of(const struct links *links);

/* Makes an image of one element in linked blocks, with TAG and FIRST_REFERENCE. Its slot is the first one; those of the tables
 * and blocks follow, the lowest reference first. All are in one block of the directory. */
struct image make_linked(const struct links *links);

/* Writes what so many blocks of that element hold, from one of them on. */
void put_contents(uint8_t *at, int block, int count);

/* ---- Tables (finding.c, worst.c, columns.c) ---- */

/* Each prints one, with its heading. */
void finding_table(const char *folder);
void worst_table(const char *folder);
void column_table(const char *folder);

/* ---- Times (times.c) ---- */

/* What is timed. Calls of the same round read the same element. */
typedef void call(void *context, int round);

/* Runs the calls in turn, round after round, for about a second and at least 31 rounds. Gives the median time of each in
 * microseconds. */
void measure(call *const *calls, int count, void *context, double *medians);

#endif
