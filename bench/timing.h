/* Some things timed beside each other. */

#ifndef TIMING_H
#define TIMING_H

#include <stddef.h>

typedef void timed(void);

/* So many things at most. */
enum { MOST_SIDES = 8 };

/* Nanoseconds of processor time that a call of each takes: the least of so many rounds, all in turns, and
   each round begins with the next of them. A round has as many calls of each as make a millisecond of it,
   so that a quick one isn't measured by a few calls right after a slow one has emptied the caches. */
void time_in_turns(timed *const calls[], double least[], size_t count, size_t rounds);

/* Rounds enough where a call takes a millisecond or less. */
enum { MANY_ROUNDS = 101 };

#endif
