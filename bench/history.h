/* What the two engines in C have in common: reading and replaying a recording, the rows, the cycle, the
   serial order, and the whole judgement around them. */

#ifndef HISTORY_H
#define HISTORY_H

#include "../include/quelohuite.h"

enum { READ = 1, WRITE, ACQUIRE, RELEASE, PREWAIT, POSTWAIT, NOTIFY, FORK, JOIN, YIELD };
enum { RECORD = 8, RECORDS = 1024, TRANSACTIONS = 512, WORDS = 8, THREADS = 16, LOCKS = 32, VARIABLES = 256 };

struct event { uint8_t thread, kind, target; uint16_t value; };

struct history {
    struct event events[RECORDS];
    uint16_t owner[RECORDS]; /* the transaction of each record */
    uint8_t thread_of[TRANSACTIONS];
    size_t records, transactions;
};

/* What is compared, for each two kinds. Two records of one thread always conflict. */
enum { N, T, F, B, E, J };
/* N nothing, T same target, F the first names the other's thread, B the second does,
   E either does, J either does or both name the same thread. */
static const uint8_t compared[10][10] = {
    /*            rd wr aq rl pr po no fo jo yi */
    /* read */    {N, T, N, N, N, N, N, B, B, N},
    /* write */   {T, T, N, N, N, N, N, B, B, N},
    /* acquire */ {N, N, T, T, T, T, T, B, B, N},
    /* release */ {N, N, T, T, T, T, T, B, B, N},
    /* prewait */ {N, N, T, T, T, T, T, B, B, N},
    /* postwait */{N, N, T, T, T, T, T, B, B, N},
    /* notify */  {N, N, T, T, T, T, T, B, B, N},
    /* fork */    {F, F, F, F, F, F, F, E, J, F},
    /* join */    {F, F, F, F, F, F, F, J, E, F},
    /* yield */   {N, N, N, N, N, N, N, B, B, N},
};

static inline int conflict(const struct event *a, const struct event *b) {
    if (a->thread == b->thread) return 1;
    switch (compared[a->kind - 1][b->kind - 1]) {
    case T: return a->target == b->target;
    case F: return a->target == b->thread;
    case B: return b->target == a->thread;
    case E: return a->target == b->thread || b->target == a->thread;
    case J: return a->target == b->thread || b->target == a->thread || a->target == b->target;
    default: return 0;
    }
}

/* The rows: bit a of row d says that a reaches d, or is d. */
static inline int bit(const uint64_t *row, size_t at) { return (int)(row[at / 64] >> (at % 64) & 1); }
static inline void set_bit(uint64_t *row, size_t at) { row[at / 64] |= (uint64_t)1 << (at % 64); }
static inline void join_rows(uint64_t *row, const uint64_t *other) {
    for (int w = 0; w < WORDS; w++) row[w] |= other[w];
}

void encode(const struct event *event, uint8_t *bytes);

/* Fills the rows, which are all 0 before, and gives the record that ends the shortest prefix with a
   cycle, or the number of records. */
typedef size_t fill_rows(const struct history *, uint64_t *rows);

/* Writes each transaction's records, transaction by transaction in this order. */
typedef void write_trace(const struct history *, const uint16_t *order, uint8_t *output);

/* The whole judgement, as quelohuite_judge, by an engine. */
struct quelohuite_answer judge_by(
    fill_rows *fill, write_trace *write,
    const uint8_t *input, size_t input_length,
    uint8_t *output, size_t output_length,
    uint64_t *work, size_t work_length);

#endif
