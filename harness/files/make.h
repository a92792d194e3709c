/* What the parts of the program that writes the files of this folder share. */
#ifndef MAKE_H
#define MAKE_H

#include <stdio.h>

#include "hdf.h"
#include "mfhdf.h"

#define COUNT(list) ((int)(sizeof(list) / sizeof((list)[0])))
#define NEED(call) need((long)(call), #call, __FILE__, __LINE__)

/* Ends the program where a fact does not hold. */
#define HOLDS(fact) NEED((fact) ? SUCCEED : FAIL)

/* Gives a call's answer. Every call of the library that can fail answers -1 then, and the program ends. */
int32 need(long answer, const char *call, const char *file, int line);

/* Sample data. */
extern uint8 bytes[4096];

/* Makes a file, with blocks of so many slots, 0 for as many as the library takes itself. */
int32 create(const char *name, int16 slots);

/* Stores a plain element. */
void put(int32 file, uint16 tag, uint16 ref, int32 length);

/* Makes a file of scientific data sets. */
int32 sd_create(const char *name);

/* Makes a file for Vdatas and Vgroups, opens one again, and closes one. */
int32 v_create(const char *name);
int32 v_open(const char *name);
void v_close(int32 file);

/* Makes a Vdata of seven records with the fields row, col and road. */
int32 road_vdata(int32 file, const char *name, int32 interlace, int32 type);

/* Writes the files with elements in linked blocks (linked.c). */
void linked_files(void);

/* The most bytes that are read of an element, a Vdata, a data set or an image, and the most members of a group. */
enum { MOST_BYTES = 8192, MOST_MEMBERS = 64 };

/* A file that is read, and where the lines about it go. */
struct source {
    const char *name;
    int32 file;
    FILE *out;
};

/* Writes a table: what the function writes of each file of the folder that opens by the rules (contents.c). */
typedef void recorder(const struct source *source);
void record_files(const char *table, const char *what, recorder *record);

/* How an element is stored: 0 for plainly, else the library's number for the kind of special storage. */
int16 storage_of(int32 file, uint16 tag, uint16 ref);

/* Whether an element that is there has been stored. Of one that has not, the library tells no length and reads nothing. */
int is_stored(int32 file, uint16 tag, uint16 ref);

/* Writes a name in quotes, and what follows it. No name has a quote or an end of line in it. */
void write_name(FILE *out, const char *name, const char *end);

/* Writes the value that stands in memory in the machine's order; answers how many bytes it has there. */
int write_value(FILE *out, int32 type, const uint8 *place);

/* Writes contents.txt: what the library reads of elements, Vgroups and Vdatas (contents.c). */
void record_contents(void);

/* Writes grids.txt: what the library reads of data sets and images (grids.c). */
void record_grids(void);

#endif
