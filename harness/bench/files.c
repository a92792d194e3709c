/* Files written by libhdf4 itself: of plain elements, of one in linked blocks, and any others, by their recipes. */
#define _POSIX_C_SOURCE 200809L
#include <fcntl.h>
#include <stdio.h>
#include <stdlib.h>
#include <string.h>
#include <sys/stat.h>
#include <unistd.h>

#include "bench.h"
#include "hdf.h"
#include "hdf4.h"

enum { ROOM = 4096 }; /* for an edit */

const char *const order_names[ORDERS] = {"ascending", "shuffled", "descending"};
const struct size sizes[SIZES] = {{16, 16}, {100, 20}, {500, 20}, {1000, 20}, {2000, 20}, {4096, 16}};

static void swap(uint16_t *a, uint16_t *b)
{
    uint16_t kept = *a;
    *a = *b;
    *b = kept;
}

void shuffle(uint16_t *numbers, int count)
{
    uint64_t state = 19930401;
    for (int i = count - 1; i > 0; i--) {
        state = state * 6364136223846793005u + 1442695040888963407u;
        swap(&numbers[i], &numbers[(state >> 33) % (uint64_t)(i + 1)]);
    }
}

/* The references in the order in which they are written. */
static void fill_references(uint16_t *references, int count, enum order order)
{
    for (int i = 0; i < count; i++)
        references[i] = (uint16_t)(FIRST_REFERENCE + (order == DESCENDING ? count - 1 - i : i));
    if (order == SHUFFLED)
        shuffle(references, count);
}

void load(struct file *file)
{
    struct stat status;
    need(stat(file->path, &status) == 0, "the length of a file");
    file->capacity = (size_t)status.st_size + ROOM;
    file->buffer = malloc(file->capacity);
    need(file->buffer != NULL, "memory for a file");
    file->length = read_file(file->path, file->buffer, file->capacity);

    hdf4_open_answer opened = hdf4_open(file->buffer, file->length);
    need(opened.number == 0, "our library opens the file");
    file->slots = (int)opened.slots;
    file->live = (int)opened.live;
}

/* Loads a file that has its elements and the version alone. */
static void load_elements(struct file *file)
{
    load(file);
    need(file->live == file->elements + 1, "the elements and the version are live");
}

struct file file_named(const char *folder, const char *name, int elements)
{
    struct file file = {.elements = elements};
    int length = snprintf(file.path, sizeof file.path, "%s/%s", folder, name);
    need(length > 0 && (size_t)length < sizeof file.path, "the name of a file");
    return file;
}

/* One slot is for the version, one stays free. */
static int elements_of(int slots)
{
    return slots - 2;
}

void write_elements(const char *path, int slots, int per_block, enum order order)
{
    uint16_t references[MOST_SLOTS];
    uint8_t bytes[ELEMENT_BYTES];

    fill_references(references, elements_of(slots), order);
    int32 id = Hopen(path, DFACC_CREATE, (int16)per_block);
    need(id != FAIL, "Hopen for a new file");
    for (int i = 0; i < elements_of(slots); i++) {
        memset(bytes, references[i], sizeof bytes);
        need(Hputelement(id, TAG, references[i], bytes, sizeof bytes) != FAIL, "Hputelement");
    }
    need(Hclose(id) != FAIL, "Hclose");
}

struct file make_file(const char *folder, const char *name, int slots, int per_block, enum order order)
{
    struct file file = file_named(folder, name, elements_of(slots));
    write_elements(file.path, slots, per_block, order);
    load_elements(&file);
    need(file.slots == slots, "the file has the slots that it should have");
    return file;
}

struct file make_by(const char *folder, const struct recipe *recipe)
{
    struct file file = file_named(folder, recipe->name, 0);
    recipe->write(file.path, recipe->count);
    load(&file);
    return file;
}

uint8_t *new_contents(size_t size)
{
    uint8_t *bytes = malloc(size);
    need(bytes != NULL, "memory for a large element");
    for (size_t i = 0; i < size; i++)
        bytes[i] = (uint8_t)(i ^ (i >> 8) ^ (i >> 16));
    return bytes;
}

struct file make_large_file(const char *folder, const char *name, size_t size)
{
    struct file file = file_named(folder, name, 1);
    uint8_t *bytes = new_contents(size);
    int32 id = Hopen(file.path, DFACC_CREATE, 0);
    need(id != FAIL && Hputelement(id, TAG, FIRST_REFERENCE, bytes, (int32)size) != FAIL, "Hputelement of a large element");
    need(Hclose(id) != FAIL, "Hclose");
    free(bytes);
    load_elements(&file);
    return file;
}

struct file make_linked_file(const char *folder, const char *name, const struct parts *parts)
{
    int tables = (parts->blocks + parts->per_table - 1) / parts->per_table;
    struct file file = file_named(folder, name, 1 + tables + parts->blocks);
    int32 size = parts->blocks * parts->bytes;
    uint8_t *bytes = new_contents((size_t)size);
    int32 id = Hopen(file.path, DFACC_CREATE, 0);
    need(id != FAIL, "Hopen for a new file");
    int32 element = HLcreate(id, TAG, FIRST_REFERENCE, parts->bytes, parts->per_table);
    need(element != FAIL && Hwrite(element, size, bytes) == size, "Hwrite to linked blocks");
    need(Hendaccess(element) != FAIL && Hclose(id) != FAIL, "Hclose");
    free(bytes);
    load_elements(&file);
    return file;
}

size_t read_file(const char *path, uint8_t *buffer, size_t capacity)
{
    struct stat status;
    int id = open(path, O_RDONLY);
    need(id >= 0 && fstat(id, &status) == 0 && (size_t)status.st_size <= capacity, "a file to read");
    size_t length = (size_t)status.st_size;
    need(read(id, buffer, length) == (ssize_t)length, "the bytes of a file");
    close(id);
    return length;
}

void write_file(const char *path, const uint8_t *bytes, size_t length)
{
    FILE *file = fopen(path, "wb");
    need(file != NULL && fwrite(bytes, 1, length, file) == length, "bytes that are written to a file");
    need(fclose(file) == 0, "bytes that are written to a file");
}

void copy_file(const struct file *file, const char *suffix, char *path, size_t room)
{
    int length = snprintf(path, room, "%s%s", file->path, suffix);
    need(length > 0 && (size_t)length < room, "the name of a copy");
    write_file(path, file->buffer, file->length);
}

void free_file(struct file *file)
{
    unlink(file->path);
    free(file->buffer);
}
