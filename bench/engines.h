/* The two engines in plain C that the proved ones are measured beside, and the pass before any engine. */

#ifndef ENGINES_H
#define ENGINES_H

#include "../include/quelohuite.h"

typedef struct quelohuite_answer judge_function(
    const uint8_t *input, size_t input_length,
    uint8_t *output, size_t output_length,
    uint64_t *work, size_t work_length);

/* As quelohuite_judge. */
judge_function plain_judge, fast_judge;

/* The part of it that no judgement can leave out: reading, checking and numbering the records. */
judge_function look_only;

#endif
