/* Quelohuite: a proved checker of yield marks, for C.

   It reads one finished recording and says whether the code between the yield marks behaved as if
   nothing else ran. Link target/staticlib/libquelohuite.a (x86-64).

   A recording is a run of 8-byte records with no header. Each record is
       byte 0, 1   the mark A7 7A
       byte 2      kind: 1 read, 2 write, 3 acquire, 4 release, 5 prewait, 6 postwait, 7 notify,
                   8 fork, 9 join, 10 yield
       byte 3      the thread that acts, 0 to 15
       byte 4      target: a variable 0 to 255 (kinds 1, 2), a lock 0 to 31 (kinds 3 to 7),
                   a thread 0 to 15 (kinds 8, 9), or 0 (kind 10)
       byte 5      spare, 0
       byte 6, 7   value, low byte first, for kinds 1 and 2; otherwise 0
   Thread 0 exists at the start and every lock is free. A variable's value is unknown until its first
   read or write, so a recording may start in the middle of a run. */

#ifndef QUELOHUITE_H
#define QUELOHUITE_H

#include <stddef.h>
#include <stdint.h>

#ifdef __cplusplus
extern "C" {
#endif

/* Values of `kind`. */
#define QUELOHUITE_COOPERABLE 0 /* first: number of records;  second: number of transactions */
#define QUELOHUITE_VIOLATION  1 /* first: number of the record that closes the cycle;
                                   second: number of transactions on the cycle */
#define QUELOHUITE_REFUSED    2 /* first: number of refusal, below;  second: number of the record,
                                   or 0 for refusals 1 to 4 */

/* Numbers of refusal. 1 to 4 are tried in that order. Then the first record with any fault
   decides, with its lowest number. A refusal anywhere comes before any violation. */
#define QUELOHUITE_INPUT_LENGTH   1  /* the input's length isn't a multiple of 8 */
#define QUELOHUITE_INPUT_LONG     2  /* the input is longer than 8,192 bytes */
#define QUELOHUITE_OUTPUT_SHORT   3  /* the output is shorter than the input */
#define QUELOHUITE_WORK_SHORT     4  /* the work area has fewer than 4,096 numbers */
#define QUELOHUITE_MARK           5  /* the mark isn't A7 7A */
#define QUELOHUITE_KIND           6  /* the kind is 0 or over 10 */
#define QUELOHUITE_FIELD          7  /* a field is outside its range */
#define QUELOHUITE_THREAD         8  /* the acting thread isn't forked, or has been joined */
#define QUELOHUITE_WAIT           9  /* a waiting thread does something other than postwait of that
                                        lock; or postwait without waiting on that lock */
#define QUELOHUITE_LOCK           10 /* acquire or postwait of a held lock; or release, prewait or
                                        notify by a thread that doesn't hold it */
#define QUELOHUITE_FORK_JOIN      11 /* fork of a thread already forked; join of oneself or of one
                                        never forked */
#define QUELOHUITE_VALUE          12 /* a read's value isn't the variable's, which is known */
#define QUELOHUITE_TRANSACTIONS   13 /* the record would begin a 513th transaction */

/* Sizes that are enough for every recording. */
#define QUELOHUITE_MOST_INPUT 8192 /* bytes of input, and so of output */
#define QUELOHUITE_WORK       4096 /* 64-bit numbers of work area */

struct quelohuite_answer {
    uint64_t kind;
    uint64_t first;
    uint64_t second;
};

/* Judges one recording. All lengths are accepted; one that won't do is refused by its number.

   input       is only read.
   output      needs `input_length` bytes.
               Cooperable: the serial trace, as many bytes as the input: the recording's own records,
               each transaction's together, in an order that swaps of neighbours reach.
               Violation: the numbers of the transactions on the cycle, the one that closes it first,
               two bytes each, low byte first.
               Whatever lies past these bytes is left as it was.
   work        needs 4,096 numbers and may hold anything. After cooperable or violation the first
               4,096 are 0 and the rest is as it was.
   Refused: output and work area are left as they were.

   The three must not overlap. A pointer whose length is 0 is never followed.
   The function keeps nothing between calls: threads may call it at once, each with its own buffers. */
struct quelohuite_answer quelohuite_judge(
    const uint8_t *input, size_t input_length,
    uint8_t *output, size_t output_length,
    uint64_t *work, size_t work_length);

/* The same by the plain engine, which compares every two records: the same answer, output and work
   area, more slowly. It is there to be held against. */
struct quelohuite_answer quelohuite_judge_plain(
    const uint8_t *input, size_t input_length,
    uint8_t *output, size_t output_length,
    uint64_t *work, size_t work_length);

/* Values of `kind` of what is told of an edge. */
#define QUELOHUITE_BECAUSE      0 /* first, second: the two records that make the edge;
                                     reason, number: on what they conflict, below */
#define QUELOHUITE_NO_SUCH_EDGE 1 /* no violation, or the place isn't below the cycle's length; all 0 */
                                  /* 2 is QUELOHUITE_REFUSED, with first and second as above */

/* Values of `reason`, and what `number` is then. */
#define QUELOHUITE_REASON_THREAD    0 /* the thread of both records */
#define QUELOHUITE_REASON_VARIABLE  1 /* the variable that both touch and one writes */
#define QUELOHUITE_REASON_LOCK      2 /* the lock that both touch */
#define QUELOHUITE_REASON_FORK_JOIN 3 /* the thread that is forked or joined */

struct quelohuite_reason {
    uint64_t kind;
    uint64_t first;
    uint64_t second;
    uint64_t reason;
    uint64_t number;
};

/* Judges one recording as `quelohuite_judge` does, leaves output and work area as it does, and tells
   why the edge at a place of the reported cycle is there. Places count from 0: the edge at place i
   goes from the cycle's transaction i to the next one, the last back to the first. The records are
   the earliest two that make the edge. */
struct quelohuite_reason quelohuite_why(
    const uint8_t *input, size_t input_length,
    uint8_t *output, size_t output_length,
    uint64_t *work, size_t work_length,
    size_t place);

/* Values of `kind` of the two below: 0 is done, 2 is QUELOHUITE_REFUSED, and 1 is never answered. */
#define QUELOHUITE_DONE 0

/* Only from quelohuite_propose. */
#define QUELOHUITE_RECORDS 15 /* the recording with its proposed yields would pass 1,024 records */

/* Draws the transactions and edges of one recording in the DOT language, also where it is a violation.
   Done: first is the number of bytes of text, which stand at the front of the output; second is 0. The
   work area's first 4,096 numbers are 0.
   Refusals are tried in the order 1, 2, 4, 5 to 13, 3; here 3 says that the text doesn't fit. After 3 the
   output is as it was and the work area's first 4,096 numbers are 0; after the others both are as they
   were. 3,148,300 bytes of output are always enough. */
struct quelohuite_answer quelohuite_dot(
    const uint8_t *input, size_t input_length,
    uint8_t *output, size_t output_length,
    uint64_t *work, size_t work_length);

/* Puts a yield before each record of one recording that would be a violation.
   Done: first is the number of bytes of the finished recording, which stand at the front of the output;
   second is the number of yields that were added. The work area's first 4,096 numbers are 0.
   Refusals are tried in the order 1, 2, 3, 4, 5 to 13 of the whole input, where 3 says that the output has
   fewer than 8,192 bytes; they leave output and work area as they were. Then, at an input record that has
   no room, 15 or 13; the output is as it was and the work area's first 4,096 numbers are 0. */
struct quelohuite_answer quelohuite_propose(
    const uint8_t *input, size_t input_length,
    uint8_t *output, size_t output_length,
    uint64_t *work, size_t work_length);

#ifdef __cplusplus
}
#endif

#endif
