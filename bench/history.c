/* A reading pass that refuses, then rows of ancestors in the work area, filled by the engine, then the
   cycle or the serial trace, then the clean-up. */

#include "engines.h"
#include "history.h"

enum { FREE = 255, NOWHERE = 255 };

struct machine {
    uint32_t variables[VARIABLES]; /* 0: not known; else the value and 1 */
    uint8_t holders[LOCKS];
    uint8_t waits[THREADS];
    uint8_t forked[THREADS];
    uint8_t joined[THREADS];
};

/* ---- reading */

static unsigned decode(const uint8_t *bytes, struct event *event) {
    uint8_t kind = bytes[2], thread = bytes[3], target = bytes[4];
    uint16_t value = (uint16_t)(bytes[6] | bytes[7] << 8);
    if (bytes[0] != 0xA7 || bytes[1] != 0x7A) return QUELOHUITE_MARK;
    if (kind == 0 || kind > YIELD) return QUELOHUITE_KIND;
    if (thread >= THREADS || bytes[5] != 0) return QUELOHUITE_FIELD;
    if (kind >= ACQUIRE && kind <= NOTIFY && target >= LOCKS) return QUELOHUITE_FIELD;
    if ((kind == FORK || kind == JOIN) && target >= THREADS) return QUELOHUITE_FIELD;
    if (kind == YIELD && target != 0) return QUELOHUITE_FIELD;
    if (kind > WRITE && value != 0) return QUELOHUITE_FIELD;
    *event = (struct event){thread, kind, target, value};
    return 0;
}

void encode(const struct event *event, uint8_t *bytes) {
    bytes[0] = 0xA7;
    bytes[1] = 0x7A;
    bytes[2] = event->kind;
    bytes[3] = event->thread;
    bytes[4] = event->target;
    bytes[5] = 0;
    bytes[6] = (uint8_t)event->value;
    bytes[7] = (uint8_t)(event->value >> 8);
}

/* ---- the replay machine */

static void fresh(struct machine *m) {
    for (int i = 0; i < VARIABLES; i++) m->variables[i] = 0;
    for (int i = 0; i < LOCKS; i++) m->holders[i] = FREE;
    for (int i = 0; i < THREADS; i++) {
        m->waits[i] = NOWHERE;
        m->forked[i] = i == 0;
        m->joined[i] = 0;
    }
}

static int breaks_a_wait(const struct machine *m, const struct event *e) {
    if (e->kind == POSTWAIT) return m->waits[e->thread] != e->target;
    return m->waits[e->thread] != NOWHERE;
}

static unsigned fault(const struct machine *m, const struct event *e) {
    if (!m->forked[e->thread] || m->joined[e->thread]) return QUELOHUITE_THREAD;
    if (breaks_a_wait(m, e)) return QUELOHUITE_WAIT;
    switch (e->kind) {
    case READ: return m->variables[e->target] == 0 || m->variables[e->target] == e->value + 1u ? 0 : QUELOHUITE_VALUE;
    case ACQUIRE:
    case POSTWAIT: return m->holders[e->target] == FREE ? 0 : QUELOHUITE_LOCK;
    case RELEASE:
    case PREWAIT:
    case NOTIFY: return m->holders[e->target] == e->thread ? 0 : QUELOHUITE_LOCK;
    case FORK: return m->forked[e->target] ? QUELOHUITE_FORK_JOIN : 0;
    case JOIN:
        return e->target == e->thread || !m->forked[e->target] ? QUELOHUITE_FORK_JOIN : 0;
    default: return 0;
    }
}

static void step(struct machine *m, const struct event *e) {
    switch (e->kind) {
    case READ:
    case WRITE: m->variables[e->target] = e->value + 1u; break;
    case ACQUIRE: m->holders[e->target] = e->thread; break;
    case RELEASE: m->holders[e->target] = FREE; break;
    case PREWAIT: m->holders[e->target] = FREE; m->waits[e->thread] = e->target; break;
    case POSTWAIT: m->holders[e->target] = e->thread; m->waits[e->thread] = NOWHERE; break;
    case FORK: m->forked[e->target] = 1; break;
    case JOIN: m->joined[e->target] = 1; break;
    default: break;
    }
}

/* Decodes, replays and numbers the transactions. Gives the number of refusal, at h->records. */
static unsigned read_history(const uint8_t *input, size_t records, struct history *h) {
    struct machine m;
    uint16_t current[THREADS] = {0};
    uint8_t ended[THREADS];
    fresh(&m);
    for (int i = 0; i < THREADS; i++) ended[i] = 1;
    h->transactions = 0;
    for (h->records = 0; h->records < records; h->records++) {
        struct event *e = &h->events[h->records];
        unsigned number = decode(input + RECORD * h->records, e);
        if (number == 0) number = fault(&m, e);
        if (number != 0) return number;
        if (ended[e->thread] || e->kind == JOIN) {
            if (h->transactions == TRANSACTIONS) return QUELOHUITE_TRANSACTIONS;
            h->thread_of[h->transactions] = e->thread;
            current[e->thread] = (uint16_t)h->transactions++;
        }
        ended[e->thread] = e->kind == YIELD || e->kind == PREWAIT;
        h->owner[h->records] = current[e->thread];
        step(&m, e);
    }
    return 0;
}

/* ---- the cycle */

static void mark_successors(const struct history *h, size_t a, size_t last, uint8_t *marked) {
    for (size_t b = 0; b < TRANSACTIONS; b++) marked[b] = 0;
    for (size_t i = 0; i <= last; i++) {
        if (h->owner[i] != a) continue;
        for (size_t j = i + 1; j <= last; j++)
            if (h->owner[j] != a && conflict(&h->events[i], &h->events[j])) marked[h->owner[j]] = 1;
    }
}

static void put(uint8_t *output, size_t place, size_t number) {
    output[2 * place] = (uint8_t)number;
    output[2 * place + 1] = (uint8_t)(number >> 8);
}

/* Writes the cycle that record `last` closes; gives its length. */
static size_t write_cycle(const struct history *h, const uint64_t *rows, size_t last, uint8_t *output) {
    uint8_t marked[TRANSACTIONS];
    size_t start = h->owner[last], at = start, length = 0;
    const uint64_t *back = rows + WORDS * start;
    for (;;) {
        put(output, length++, at);
        mark_successors(h, at, last, marked);
        if (at != start && marked[start]) return length;
        size_t next = 0;
        while (next == start || !marked[next] || !bit(back, next)) next++;
        at = next;
    }
}

/* ---- the serial order */

/* Of each thread its next transaction, and how many ancestors of that one aren't taken, itself
   included: 0 where the thread has none left. */
struct counts {
    size_t next[THREADS];
    size_t left[THREADS];
};

static void find_next(const struct history *h, const uint64_t *rows, const uint64_t *taken,
                      struct counts *c, size_t thread, size_t from) {
    size_t t = from, left = 0;
    while (t < h->transactions && (h->thread_of[t] != thread || bit(taken, t))) t++;
    if (t < h->transactions)
        for (int w = 0; w < WORDS; w++)
            left += (size_t)__builtin_popcountll(rows[WORDS * t + w] & ~taken[w]);
    c->next[thread] = t;
    c->left[thread] = left;
}

static void take(const struct history *h, const uint64_t *rows, uint64_t *taken,
                 struct counts *c, size_t thread) {
    size_t t = c->next[thread];
    set_bit(taken, t);
    for (size_t u = 0; u < THREADS; u++)
        if (c->left[u] != 0 && bit(rows + WORDS * c->next[u], t)) c->left[u]--;
    find_next(h, rows, taken, c, thread, t + 1);
}

static void serial_order(const struct history *h, const uint64_t *rows, uint16_t *order) {
    uint64_t taken[WORDS] = {0};
    struct counts c;
    for (size_t thread = 0; thread < THREADS; thread++) find_next(h, rows, taken, &c, thread, 0);
    for (size_t n = 0; n < h->transactions; n++) {
        size_t thread = 0;
        while (c.left[thread] != 1) thread++;
        order[n] = (uint16_t)c.next[thread];
        take(h, rows, taken, &c, thread);
    }
}

/* ---- the whole */

static void clear(uint64_t *rows) {
    for (size_t i = 0; i < WORDS * TRANSACTIONS; i++) rows[i] = 0;
}

static unsigned refuse_lengths(size_t input, size_t output, size_t work) {
    if (input % RECORD != 0) return QUELOHUITE_INPUT_LENGTH;
    if (input > RECORD * RECORDS) return QUELOHUITE_INPUT_LONG;
    if (output < input) return QUELOHUITE_OUTPUT_SHORT;
    if (work < WORDS * TRANSACTIONS) return QUELOHUITE_WORK_SHORT;
    return 0;
}

struct quelohuite_answer look_only(
    const uint8_t *input, size_t input_length,
    uint8_t *output, size_t output_length,
    uint64_t *work, size_t work_length) {
    struct history h;
    (void)output;
    (void)work;
    unsigned number = refuse_lengths(input_length, output_length, work_length);
    if (number != 0) return (struct quelohuite_answer){QUELOHUITE_REFUSED, number, 0};
    number = read_history(input, input_length / RECORD, &h);
    if (number != 0) return (struct quelohuite_answer){QUELOHUITE_REFUSED, number, h.records};
    return (struct quelohuite_answer){QUELOHUITE_COOPERABLE, h.records, h.transactions};
}

struct quelohuite_answer judge_by(
    fill_rows *fill, write_trace *write,
    const uint8_t *input, size_t input_length,
    uint8_t *output, size_t output_length,
    uint64_t *work, size_t work_length) {
    struct history h;
    struct quelohuite_answer answer;
    unsigned number = refuse_lengths(input_length, output_length, work_length);
    if (number != 0) return (struct quelohuite_answer){QUELOHUITE_REFUSED, number, 0};
    number = read_history(input, input_length / RECORD, &h);
    if (number != 0) return (struct quelohuite_answer){QUELOHUITE_REFUSED, number, h.records};
    clear(work);
    size_t last = fill(&h, work);
    if (last < h.records) {
        size_t length = write_cycle(&h, work, last, output);
        answer = (struct quelohuite_answer){QUELOHUITE_VIOLATION, last, length};
    } else {
        uint16_t order[TRANSACTIONS];
        serial_order(&h, work, order);
        write(&h, order, output);
        answer = (struct quelohuite_answer){QUELOHUITE_COOPERABLE, h.records, h.transactions};
    }
    clear(work);
    return answer;
}
