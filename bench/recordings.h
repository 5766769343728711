/* The recordings that are measured. */

#ifndef RECORDINGS_H
#define RECORDINGS_H

#include <stddef.h>
#include <stdint.h>

enum { MOST_RECORDS = 1024 };

struct recording {
    uint8_t bytes[8 * MOST_RECORDS];
    size_t records;
};

struct shape {
    const char *name;
    /* Makes a recording of exactly so many records, or of fewer where the shape says so. */
    void (*make)(struct recording *, size_t records);
};

/* Other last four records, with which the last closes a cycle. For recordings that leave the variables
   200 and 201 alone and in which threads 1 and 2 run. */
void close_cycle(struct recording *);

/* The recording of a night by its number: typical, of 1,024 records, with 3 to 16 threads and 1 to 32
   locks. One in ten ends in a violation. */
void of_a_night(struct recording *, unsigned number);

extern const struct shape shapes[];
extern const size_t shape_count;

#endif
