/* Judges the recording in a file and says the verdict in words.

       judge_file FILE           lends buffers that are large enough
       judge_file FILE short     lends an output one byte too short, to show how that is refused

   Its exit status is the answer's kind: 0 cooperable, 1 violation, 2 refused (or no file).

   Built from the folder above (x86-64):
       cc -Iinclude examples/judge_file.c target/staticlib/libquelohuite.a -o judge_file */

#include <stdio.h>
#include <string.h>

#include "quelohuite.h"

/* One record more than the longest recording, so that a longer file is seen to be longer. */
static uint8_t input[QUELOHUITE_MOST_INPUT + 8];
static uint8_t output[QUELOHUITE_MOST_INPUT + 8];
static uint64_t work[QUELOHUITE_WORK];

static const char *const operation_names[11] = {
    "", "read", "write", "acquire", "release", "prewait", "postwait", "notify", "fork", "join", "yield",
};

static const char *const refusals[14] = {
    "",
    "the input's length isn't a multiple of 8",
    "the input is longer than 8,192 bytes",
    "the output is shorter than the input",
    "the work area has fewer than 4,096 numbers",
    "the mark isn't A7 7A",
    "the kind is 0 or over 10",
    "a field is outside its range",
    "the acting thread isn't forked, or has been joined",
    "a waiting thread does something else, or postwait without a wait",
    "a held lock is taken, or a lock is used by a thread that doesn't hold it",
    "fork of a thread already forked, or join of oneself or of one never forked",
    "a read's value isn't the variable's",
    "the record would begin a 513th transaction",
};

static void print_record(const uint8_t *record) {
    unsigned kind = record[2], value = record[6] | (unsigned)record[7] << 8;
    printf("  thread %u: %s", record[3], operation_names[kind]);
    if (kind <= 2) printf(" v%u %u", record[4], value);
    else if (kind <= 7) printf(" m%u", record[4]);
    else if (kind <= 9) printf(" %u", record[4]);
    printf("\n");
}

static void print_cooperable(struct quelohuite_answer answer) {
    printf("cooperable: %llu records in %llu transactions\n",
           (unsigned long long)answer.first, (unsigned long long)answer.second);
    printf("it ran as if in this order, with nothing between the yield marks:\n");
    for (uint64_t record = 0; record < answer.first; record++) print_record(output + 8 * record);
}

static void print_violation(struct quelohuite_answer answer) {
    printf("violation: record %llu closes a cycle of %llu transactions:",
           (unsigned long long)answer.first, (unsigned long long)answer.second);
    for (uint64_t place = 0; place < answer.second; place++)
        printf(" %u", output[2 * place] | (unsigned)output[2 * place + 1] << 8);
    printf("\nthe record is\n");
    print_record(input + 8 * answer.first);
}

static void print_answer(struct quelohuite_answer answer) {
    if (answer.kind == QUELOHUITE_COOPERABLE) {
        print_cooperable(answer);
    } else if (answer.kind == QUELOHUITE_VIOLATION) {
        print_violation(answer);
    } else {
        printf("refused by number %llu: %s\n", (unsigned long long)answer.first, refusals[answer.first]);
        if (answer.first > QUELOHUITE_WORK_SHORT)
            printf("at record %llu\n", (unsigned long long)answer.second);
    }
}

int main(int count, char **words) {
    FILE *file = count == 2 || count == 3 ? fopen(words[1], "rb") : NULL;
    if (file == NULL) {
        fprintf(stderr, "usage: judge_file FILE [short]\n");
        return 2;
    }
    size_t length = fread(input, 1, sizeof input, file);
    int well = !ferror(file);
    fclose(file);
    if (!well) {
        fprintf(stderr, "judge_file: %s can't be read\n", words[1]);
        return 2;
    }
    size_t lent = sizeof output;
    if (count == 3 && strcmp(words[2], "short") == 0 && length > 0) lent = length - 1;
    struct quelohuite_answer answer =
        quelohuite_judge(input, length, output, lent, work, QUELOHUITE_WORK);
    print_answer(answer);
    return (int)answer.kind;
}
