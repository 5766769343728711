/* The second engine in C, as in section 4 of the paper: a record is compared with no other, but gets its
   edges from who touched the same last. They are fewer than the plain engine's, with the same paths. */

#include "engines.h"
#include "history.h"

enum { NOBODY = 0xFFFF };

/* Transactions, or NOBODY. */
struct lasts {
    uint16_t of_lock[LOCKS];
    uint16_t of_thread[THREADS]; /* the thread's last, or else its fork's */
    uint16_t writer[VARIABLES];
    uint16_t reader[VARIABLES][THREADS];
};

/* The transaction that takes in edges. */
struct taking {
    uint64_t *rows;
    size_t t;
    int cycle, grown;
};

static void forget(struct lasts *l) {
    for (int i = 0; i < LOCKS; i++) l->of_lock[i] = NOBODY;
    for (int i = 0; i < THREADS; i++) l->of_thread[i] = NOBODY;
    for (int i = 0; i < VARIABLES; i++) {
        l->writer[i] = NOBODY;
        for (int j = 0; j < THREADS; j++) l->reader[i][j] = NOBODY;
    }
}

static void take_edge(struct taking *taking, uint16_t from) {
    uint64_t *row = taking->rows + WORDS * taking->t;
    if (from == NOBODY || bit(row, from)) return;
    taking->cycle |= bit(taking->rows + WORDS * from, taking->t);
    join_rows(row, taking->rows + WORDS * from);
    taking->grown = 1;
}

/* The edges of a record, and who is last from now on. */
static void take_edges(struct taking *taking, struct lasts *l, const struct event *e) {
    uint16_t t = (uint16_t)taking->t;
    take_edge(taking, l->of_thread[e->thread]);
    l->of_thread[e->thread] = t;
    switch (e->kind) {
    case READ:
        take_edge(taking, l->writer[e->target]);
        l->reader[e->target][e->thread] = t;
        break;
    case WRITE:
        take_edge(taking, l->writer[e->target]);
        for (int i = 0; i < THREADS; i++) take_edge(taking, l->reader[e->target][i]);
        l->writer[e->target] = t;
        break;
    case FORK: l->of_thread[e->target] = t; break;
    case JOIN: take_edge(taking, l->of_thread[e->target]); break;
    case YIELD: break;
    default:
        take_edge(taking, l->of_lock[e->target]);
        l->of_lock[e->target] = t;
    }
}

static size_t fill_by_lasts(const struct history *h, uint64_t *rows) {
    struct lasts l;
    size_t begun = 0;
    forget(&l);
    for (size_t k = 0; k < h->records; k++) {
        struct taking taking = {rows, h->owner[k], 0, 0};
        uint64_t *row = rows + WORDS * taking.t;
        int new = taking.t == begun;
        if (new) begun++;
        set_bit(row, taking.t);
        take_edges(&taking, &l, &h->events[k]);
        if (taking.cycle) return k;
        /* No row has a new transaction in it but its own. */
        if (new || !taking.grown) continue;
        for (size_t d = 0; d < begun; d++)
            if (bit(rows + WORDS * d, taking.t)) join_rows(rows + WORDS * d, row);
    }
    return h->records;
}

/* In one pass, each record to the place that the transactions before its own leave. */
static void write_in_one_pass(const struct history *h, const uint16_t *order, uint8_t *output) {
    size_t records[TRANSACTIONS] = {0}, place[TRANSACTIONS], next = 0;
    for (size_t i = 0; i < h->records; i++) records[h->owner[i]]++;
    for (size_t n = 0; n < h->transactions; n++) {
        place[order[n]] = next;
        next += records[order[n]];
    }
    for (size_t i = 0; i < h->records; i++) encode(&h->events[i], output + RECORD * place[h->owner[i]]++);
}

struct quelohuite_answer fast_judge(
    const uint8_t *input, size_t input_length,
    uint8_t *output, size_t output_length,
    uint64_t *work, size_t work_length) {
    return judge_by(fill_by_lasts, write_in_one_pass, input, input_length, output, output_length, work, work_length);
}
