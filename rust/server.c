/* Answers each request on standard input, for a machine that is not x86-64.

   A request: which function (0 judge, 1 why, 2 judge by the plain
   engine, 3 dot, 4 propose), the place that is asked for, and the lengths of input,
   output and work area, 8 bytes each, low byte first; then the contents of the three. The reply: five
   numbers, 0 where the function answers fewer, then the contents of output and work area. */

typedef unsigned char u8;
typedef unsigned long u64;

struct quelohuite_answer { u64 kind, first, second; };
typedef struct quelohuite_answer answers(const u8 *, u64, u8 *, u64, u64 *, u64);
answers quelohuite_judge, quelohuite_judge_plain, quelohuite_dot, quelohuite_propose;
struct quelohuite_reason { u64 kind, first, second, reason, number; };
struct quelohuite_reason quelohuite_why(const u8 *, u64, u8 *, u64, u64 *, u64, u64);

struct request { u64 function, place, input, output, work; };

long read(int, void *, u64);
long write(int, const void *, u64);
void *malloc(u64);
void free(void *);

static int read_all(void *to, u64 length) {
    u64 done = 0;
    while (done < length) {
        long got = read(0, (u8 *)to + done, length - done);
        if (got <= 0) return 0;
        done += (u64)got;
    }
    return 1;
}

static int write_all(const void *from, u64 length) {
    u64 done = 0;
    while (done < length) {
        long put = write(1, (const u8 *)from + done, length - done);
        if (put <= 0) return 0;
        done += (u64)put;
    }
    return 1;
}

static struct quelohuite_reason answer(
    const struct request *asked, const u8 *input, u8 *output, u64 *work) {
    if (asked->function == 1)
        return quelohuite_why(
            input, asked->input, output, asked->output, work, asked->work, asked->place);
    answers *function = asked->function == 2 ? quelohuite_judge_plain
                      : asked->function == 3 ? quelohuite_dot
                      : asked->function == 4 ? quelohuite_propose
                                             : quelohuite_judge;
    struct quelohuite_answer said =
        function(input, asked->input, output, asked->output, work, asked->work);
    return (struct quelohuite_reason){said.kind, said.first, said.second, 0, 0};
}

static int serve(const struct request *asked) {
    /* One more than asked for, so that none is empty. */
    u8 *input = malloc(asked->input + 1), *output = malloc(asked->output + 1);
    u64 *work = malloc(8 * asked->work + 8);
    int well = input && output && work;
    well = well && read_all(input, asked->input) && read_all(output, asked->output);
    well = well && read_all(work, 8 * asked->work);
    if (well) {
        struct quelohuite_reason numbers = answer(asked, input, output, work);
        well = write_all(&numbers, sizeof numbers) && write_all(output, asked->output);
        well = well && write_all(work, 8 * asked->work);
    }
    free(input);
    free(output);
    free(work);
    return well;
}

int main(void) {
    struct request asked;
    while (read_all(&asked, sizeof asked))
        if (!serve(&asked)) return 1;
    return 0;
}
