/* Makes the recordings that are measured. Each is the same on every machine. */

#include "recordings.h"

enum { READ = 1, WRITE, ACQUIRE, RELEASE, PREWAIT, POSTWAIT, NOTIFY, FORK, JOIN, YIELD };

static void add(struct recording *r, unsigned thread, unsigned kind, unsigned target, unsigned value) {
    uint8_t *at = r->bytes + 8 * r->records++;
    at[0] = 0xA7;
    at[1] = 0x7A;
    at[2] = (uint8_t)kind;
    at[3] = (uint8_t)thread;
    at[4] = (uint8_t)target;
    at[5] = 0;
    at[6] = (uint8_t)value;
    at[7] = (uint8_t)(value >> 8);
}

static unsigned next_number(uint64_t *state, unsigned limit) {
    *state = *state * 6364136223846793005u + 1442695040888963407u;
    return (unsigned)(*state >> 33) % limit;
}

/* Thread 0 forks the others, and yields. */
static void begin(struct recording *r, unsigned threads) {
    r->records = 0;
    for (unsigned thread = 1; thread < threads; thread++) add(r, 0, FORK, thread, 0);
    add(r, 0, YIELD, 0, 0);
}

/* Acquire, read, write, release, yield, mixed with the others'. Each section keeps to one lock and one
   variable, so the recording is cooperable. */
static void sections(struct recording *r, size_t records, unsigned threads, unsigned locks, uint64_t state) {
    unsigned place[16] = {0}, lock[16] = {0};
    unsigned held[32] = {0}, value[32] = {0};
    begin(r, threads);
    while (r->records < records) {
        unsigned thread = next_number(&state, threads);
        if (place[thread] == 0) {
            lock[thread] = next_number(&state, locks);
            if (held[lock[thread]]) continue;
        }
        unsigned m = lock[thread];
        switch (place[thread]) {
        case 0: add(r, thread, ACQUIRE, m, 0); held[m] = 1; break;
        case 1: add(r, thread, READ, m, value[m]); break;
        case 2: value[m] = next_number(&state, 1000); add(r, thread, WRITE, m, value[m]); break;
        case 3: add(r, thread, RELEASE, m, 0); held[m] = 0; break;
        default: add(r, thread, YIELD, 0, 0); break;
        }
        place[thread] = (place[thread] + 1) % 5;
    }
}

/* Six threads, eight locks. */
static void typical(struct recording *r, size_t records) { sections(r, records, 6, 8, 1); }

/* Sixteen threads in turn make half as many transactions as there are records: 512 of 1,024. Each
   accesses one variable and yields; the last ones, where no more records are left, only yield. */
static void many_yields(struct recording *r, size_t records, unsigned kind, unsigned variables) {
    begin(r, 16);
    for (size_t left = records / 2 - 1; left > 0; left--) {
        unsigned turn = (unsigned)(records / 2 - 1 - left), thread = turn % 16;
        if (records - r->records > left) add(r, thread, kind, thread % variables, 0);
        add(r, thread, YIELD, 0, 0);
    }
}

/* All write one variable: an edge between every two transactions. */
static void dense(struct recording *r, size_t records) { many_yields(r, records, WRITE, 1); }

/* Each reads what is its thread's alone: few edges. */
static void sparse(struct recording *r, size_t records) { many_yields(r, records, READ, 16); }

/* Every transaction is on the cycle that the last record closes. */
static void long_cycle(struct recording *r, size_t records) {
    unsigned turn = 0;
    r->records = 0;
    add(r, 0, FORK, 1, 0);
    add(r, 0, FORK, 2, 0);
    for (; r->records + 4 <= records; turn++) {
        add(r, 1 + turn % 2, WRITE, 1, turn);
        add(r, 1 + turn % 2, YIELD, 0, 0);
    }
    add(r, 1, WRITE, 2, 1);
    add(r, 0, READ, 2, 1);
}

/* The first record is of a thread that was never forked. */
static void refused_early(struct recording *r, size_t records) {
    typical(r, records);
    r->bytes[3] = 15;
}

/* The last record reads a value that isn't there. */
static void refused_late(struct recording *r, size_t records) {
    typical(r, records - 2);
    add(r, 0, WRITE, 255, 0);
    add(r, 0, READ, 255, 1);
}

static void empty(struct recording *r, size_t records) {
    (void)records;
    r->records = 0;
}

/* Each thread writes one variable again and again, and then the next does: all pairs conflict. */
static void one_variable(struct recording *r, size_t records) {
    begin(r, 16);
    size_t first = r->records;
    while (r->records < records)
        add(r, (unsigned)(16 * (r->records - first) / (records - first)), WRITE, 0, 1);
}

/* The same writes in turn: a violation as soon as a thread comes round again. */
static void one_variable_in_turn(struct recording *r, size_t records) {
    begin(r, 16);
    for (unsigned turn = 0; r->records < records; turn++) add(r, turn % 16, WRITE, 0, 1);
}

void close_cycle(struct recording *r) {
    r->records -= 4;
    add(r, 1, WRITE, 200, 1);
    add(r, 2, READ, 200, 1);
    add(r, 2, WRITE, 201, 1);
    add(r, 1, READ, 201, 1);
}

void of_a_night(struct recording *r, unsigned number) {
    sections(r, MOST_RECORDS, 3 + number % 14, 1 + number % 32, number * 0x9E3779B97F4A7C15u);
    if (number % 10 == 9) close_cycle(r);
}

const struct shape shapes[] = {
    {"typical", typical},
    {"long cycle", long_cycle},
    {"many yields, sparse", sparse},
    {"many yields, dense", dense},
    {"one variable, by thread", one_variable},
    {"one variable, in turn", one_variable_in_turn},
    {"refused late", refused_late},
    {"refused early", refused_early},
    {"empty", empty},
};
const size_t shape_count = sizeof shapes / sizeof shapes[0];
