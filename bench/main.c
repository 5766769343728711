/* Measures the proved engines beside the ones in C, or beside those of an earlier library, in turns, on the
   same recordings and in the same buffers. It asserts no time; it stops if any two don't leave the same bytes.

   bench            the engines beside C, how time grows, a night, and proposing beside judging
   bench --agree    holds all to each other on these recordings, and measures nothing
   BEFORE defined   now beside the earlier library, every row

   The C library's functions are declared here, for the kit's compiler comes without headers. */

#include "engines.h"
#include "recordings.h"
#include "timing.h"

int printf(const char *, ...);
int memcmp(const void *, const void *, size_t);

enum { SIZES = 4, SHAPES = 16, NIGHT = 400, NIGHT_ROUNDS = 5, WORK = QUELOHUITE_WORK };
static const size_t sizes[SIZES] = {128, 256, 512, 1024};

static const struct recording *first;
static size_t many;
static uint8_t output[2][QUELOHUITE_MOST_INPUT];
static uint64_t work[2][WORK];

static struct quelohuite_answer call(judge_function *judge, const struct recording *r, int side) {
    return judge(r->bytes, 8 * r->records, output[side], sizeof output[side], work[side], WORK);
}

static void call_all(judge_function *judge) {
    for (size_t i = 0; i < many; i++) call(judge, first + i, 0);
}

static void call_second(void) { call_all(quelohuite_judge); }
static void call_plain(void) { call_all(quelohuite_judge_plain); }
static void call_propose(void) { call_all(quelohuite_propose); }

/* The sides: those that judge, the first `JUDGES` of them, must leave the same bytes. */
#ifdef BEFORE
/* The earlier library: bench/run gives its functions these names. */
judge_function queloearly_judge, queloearly_judge_plain, queloearly_propose;
static void call_early(void) { call_all(queloearly_judge); }
static void call_early_plain(void) { call_all(queloearly_judge_plain); }
static void call_early_propose(void) { call_all(queloearly_propose); }
enum { SECOND, PLAIN, EARLY, EARLY_PLAIN, JUDGES, PROPOSE = JUDGES, EARLY_PROPOSE, SIDES };
static judge_function *const judges[JUDGES] = {quelohuite_judge, quelohuite_judge_plain, queloearly_judge, queloearly_judge_plain};
static timed *const calls[SIDES] = {call_second, call_plain, call_early, call_early_plain, call_propose, call_early_propose};
static const char *const names[SIDES] = {"second", "plain", "before", "plain before", "propose", "before"};
static const int ratios[][2] = {{SECOND, EARLY}, {PLAIN, EARLY_PLAIN}, {PROPOSE, EARLY_PROPOSE}};
#else
static void call_c_second(void) { call_all(fast_judge); }
static void call_c_plain(void) { call_all(plain_judge); }
static void call_look(void) { call_all(look_only); }
enum { SECOND, PLAIN, C_SECOND, C_PLAIN, JUDGES, LOOK = JUDGES, SIDES };
static judge_function *const judges[JUDGES] = {quelohuite_judge, quelohuite_judge_plain, fast_judge, plain_judge};
static timed *const calls[SIDES] = {call_second, call_plain, call_c_second, call_c_plain, call_look};
static const char *const names[SIDES] = {"second", "plain", "C second", "C plain", "C look"};
static const int ratios[][2] = {{SECOND, PLAIN}, {SECOND, C_SECOND}, {PLAIN, C_PLAIN}, {SECOND, LOOK}};
#endif
enum { RATIOS = sizeof ratios / sizeof ratios[0] };
static double times[SHAPES][SIZES][SIDES];

/* All that judge are given the same contents and must leave the same. */
static int agree(const struct recording *r) {
    struct quelohuite_answer answer = {0, 0, 0};
    for (int side = 0; side < JUDGES; side++) {
        int here = side != 0;
        for (size_t i = 0; i < sizeof output[0]; i++) output[here][i] = (uint8_t)(7 * i);
        for (size_t i = 0; i < WORK; i++) work[here][i] = ~(uint64_t)i;
        struct quelohuite_answer other = call(judges[side], r, here);
        if (side == 0) answer = other;
        if (answer.kind != other.kind || answer.first != other.first || answer.second != other.second ||
            memcmp(output[0], output[here], sizeof output[0]) != 0 ||
            memcmp(work[0], work[here], sizeof work[0]) != 0)
            return 0;
    }
    return 1;
}

static void print_heading(const char *unit) {
    printf("%-24s %7s", "recording", "records");
    for (int side = 0; side < SIDES; side++) printf(" %12s, %s", names[side], unit);
    for (int i = 0; i < RATIOS; i++) printf("  %7s / %-12s", names[ratios[i][0]], names[ratios[i][1]]);
    printf("\n");
}

static void print_row(const char *name, size_t records, const double *time, double unit) {
    printf("%-24s %7lu", name, (unsigned long)records);
    for (int side = 0; side < SIDES; side++) printf(" %16.2f", time[side] / unit);
    for (int i = 0; i < RATIOS; i++) printf("  %22.2f", time[ratios[i][0]] / time[ratios[i][1]]);
    printf("\n");
}

static void print_growth(void) {
    printf("\ngrowth from size to size: 2 is in proportion, 4 is by the square\n");
    for (size_t s = 0; s < shape_count; s++)
        for (int side = 0; side < SIDES; side++) {
            printf("%-24s %-12s", side == 0 ? shapes[s].name : "", names[side]);
            for (int size = 1; size < SIZES; size++)
                printf("  %6.2f", times[s][size][side] / times[s][size - 1][side]);
            printf("\n");
        }
}

/* Of the second engine, which is what quelohuite_judge has. */
static void print_worst(void) {
    printf("\n");
    for (int size = 0; size < SIZES; size++) {
        size_t worst = 0;
        for (size_t s = 1; s < shape_count; s++)
            if (times[s][size][0] > times[worst][size][0]) worst = s;
        printf("%5lu records: slowest for %s is %s, %.2f of typical\n", (unsigned long)sizes[size], names[0],
               shapes[worst].name, times[worst][size][0] / times[0][size][0]);
    }
}

/* Measures, or only holds all to each other; gives how many recordings that was, or 0 where two differ. */
static size_t each_shape(int measured) {
    static struct recording recording;
    size_t held = 0;
    first = &recording;
    many = 1;
    if (measured) {
        /* The processor is slower in its first second of work: what is measured then is left out. */
        shapes[0].make(&recording, MOST_RECORDS);
        time_in_turns(calls, times[0][0], SIDES, MANY_ROUNDS);
        print_heading("us");
    }
    for (size_t s = 0; s < shape_count; s++)
        for (int size = 0; size < SIZES; size++) {
            shapes[s].make(&recording, sizes[size]);
            if (!agree(&recording)) {
                printf("%s, %lu records: two of them differ\n", shapes[s].name, (unsigned long)sizes[size]);
                return 0;
            }
            held++;
            if (!measured) continue;
            time_in_turns(calls, times[s][size], SIDES, MANY_ROUNDS);
            print_row(shapes[s].name, recording.records, times[s][size], 1e3);
        }
    return held;
}

/* Four hundred recordings, one after the other. */
static size_t each_of_a_night(int measured) {
    static struct recording night[NIGHT];
    size_t violations = 0;
    double time[SIDES];
    first = night;
    many = NIGHT;
    for (unsigned i = 0; i < NIGHT; i++) {
        of_a_night(&night[i], i);
        if (!agree(&night[i])) {
            printf("recording %u of the night: two of them differ\n", i);
            return 0;
        }
        violations += call(quelohuite_judge, &night[i], 0).kind == QUELOHUITE_VIOLATION;
    }
    if (!measured) return NIGHT;
    printf("\na night: %d recordings, %lu of them violations\n", NIGHT, (unsigned long)violations);
    print_heading("ms");
    time_in_turns(calls, time, SIDES, NIGHT_ROUNDS);
    print_row("a night", MOST_RECORDS, time, 1e6);
    return NIGHT;
}

/* Proposing yields beside judging the same recording, by either proved engine. */
static void measure_proposing(void) {
    static struct recording recording;
    static timed *const beside[] = {call_propose, call_second, call_plain};
    double time[3];
    first = &recording;
    many = 1;
    printf("\n%-24s %7s %7s  %16s  %16s\n", "proposing", "records", "yields", "propose / second", "propose / plain");
    for (size_t s = 0; s < shape_count; s++)
        for (int size = 0; size < SIZES; size++) {
            shapes[s].make(&recording, sizes[size]);
            struct quelohuite_answer answer = call(quelohuite_propose, &recording, 0);
            if (answer.kind != QUELOHUITE_DONE || recording.records == 0) continue;
            time_in_turns(beside, time, 3, MANY_ROUNDS);
            printf("%-24s %7lu %7lu  %16.2f  %16.2f\n", shapes[s].name, (unsigned long)recording.records,
                   (unsigned long)answer.second, time[0] / time[1], time[0] / time[2]);
        }
}

int main(int words, char **word) {
    int measured = words < 2 || word[1][2] != 'a';
    size_t held = each_shape(measured);
    if (held == 0) return 1;
    if (measured) {
        print_growth();
        print_worst();
    }
    size_t nightly = each_of_a_night(measured);
    if (nightly == 0) return 1;
    if (measured)
        measure_proposing();
    else
        printf("%lu passed: %d that judge leave the same bytes\n", (unsigned long)(held + nightly), (int)JUDGES);
    return 0;
}
