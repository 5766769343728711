/* The plain engine in C: each record is compared with all records before it, and the records of each
   transaction are looked for among all. */

#include "engines.h"
#include "history.h"

/* Brings in record k; says whether it closes a cycle. */
static int bring_in(const struct history *h, uint64_t *rows, size_t k) {
    size_t t = h->owner[k];
    uint64_t *row = rows + WORDS * t;
    int cycle = 0;
    set_bit(row, t);
    for (size_t i = 0; i < k; i++) {
        size_t c = h->owner[i];
        if (c == t || !conflict(&h->events[i], &h->events[k])) continue;
        cycle |= bit(rows + WORDS * c, t);
        join_rows(row, rows + WORDS * c);
    }
    for (size_t d = 0; d < TRANSACTIONS; d++)
        if (bit(rows + WORDS * d, t)) join_rows(rows + WORDS * d, row);
    return cycle;
}

static size_t fill_by_pairs(const struct history *h, uint64_t *rows) {
    size_t k = 0;
    while (k < h->records && !bring_in(h, rows, k)) k++;
    return k;
}

static void write_by_search(const struct history *h, const uint16_t *order, uint8_t *output) {
    size_t written = 0;
    for (size_t n = 0; n < h->transactions; n++)
        for (size_t i = 0; i < h->records; i++)
            if (h->owner[i] == order[n]) encode(&h->events[i], output + RECORD * written++);
}

struct quelohuite_answer plain_judge(
    const uint8_t *input, size_t input_length,
    uint8_t *output, size_t output_length,
    uint64_t *work, size_t work_length) {
    return judge_by(fill_by_pairs, write_by_search, input, input_length, output, output_length, work, work_length);
}
