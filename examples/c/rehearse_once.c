/* A scaler in station 3 and an output register in station 4, rehearsed step by step, then as a list. From the repository's root:
 *
 *   ./build.sh library
 *   gcc -std=c99 -Wall -Wextra -I include examples/c/rehearse_once.c target/staticlib/libcapi.a -o target/rehearse_once
 *   target/rehearse_once
 */
#include <inttypes.h>
#include <stdio.h>
#include <string.h>

#include "pagontxu.h"

/* Prints an answer as the sheet of a rehearsal does, without the step's number. */
static void print_answer(const uint32_t *answer, const uint32_t *buffer)
{
    switch (answer[0]) {
    case PAGONTXU_REFUSED:
        printf("refused=%" PRIu32 "\n", answer[1]);
        break;
    case PAGONTXU_REPLIED:
        printf("x=%" PRIu32 " q=%" PRIu32 " r=%" PRIu32 "\n", answer[1], answer[2], answer[3]);
        break;
    case PAGONTXU_TAKEN:
        printf("taken=%" PRIu32 "\n", answer[1]);
        break;
    case PAGONTXU_DONE:
        printf("done=%" PRIu32 "\n", answer[1]);
        break;
    case PAGONTXU_LOOKED:
        printf("l=%" PRIu32 " count=%" PRIu32 " first=%" PRIu32 "\n", answer[1], answer[2], answer[3]);
        break;
    case PAGONTXU_TRANSFERRED:
        printf("end=%" PRIu32 " words=%" PRIu32 " cycles=%" PRIu32 "\n", answer[1], answer[2], answer[3]);
        for (uint32_t i = 0; i < answer[2]; i++)
            printf("word=%" PRIu32 "\n", buffer[i]);
        break;
    case PAGONTXU_LISTED:
        printf("words=%" PRIu32 "\n", answer[1]);
        for (uint32_t i = 0; i < answer[1]; i++)
            printf("word=%" PRIu32 "\n", buffer[i]);
        break;
    case PAGONTXU_WROTE:
        printf("end=%" PRIu32 " words=%" PRIu32 " cycles=%" PRIu32 "\n", answer[1], answer[2], answer[3]);
        break;
    }
}

/* A crate with the two modules in it, each one station wide. */
static uint32_t set_up(uint32_t *memory)
{
    const char *scaler = "n=3 kind=1 r=2 wide=1", *output = "n=4 kind=2 r=2 wide=1";
    memset(memory, 0, PAGONTXU_MEMORY_WORDS * sizeof memory[0]);
    uint32_t number = pagontxu_crate_line(memory, PAGONTXU_MEMORY_WORDS, 0, (const uint8_t *)scaler, strlen(scaler));
    return number ? number : pagontxu_crate_line(memory, PAGONTXU_MEMORY_WORDS, 3, (const uint8_t *)output, strlen(output));
}

int main(void)
{
    static const uint32_t steps[][PAGONTXU_STEP_WORDS] = {
        {2, 3, 0, 16777215, 0, 0}, /* front n=3 a=0 v=16777215: the register is full */
        {1, 3, 0, 26, 0, 0},       /* naf n=3 a=0 f=26: mask bit 0 is set */
        {2, 3, 0, 1, 0, 0},        /* front n=3 a=0 v=1: one more, the register goes to 0 and its status bit to 1, so 2 */
        {6, 0, 0, 0, 0, 0},        /* lam */
        {2, 3, 1, 7, 0, 0},        /* front n=3 a=1 v=7 */
        {12, 3, 4, 1, 100, 0},     /* within n=3 to=4 lo=1 hi=100: the register at n=3 a=1 */
        {7, 3, 0, 2, 3, 8},        /* scan n=3 a=0 f=2 to=3 limit=8 */
        {10, 4, 0, 4, 2, 5},       /* put n=4 a=0 to=4 limit=2 w=5: both output registers hold 5 */
        {1, 4, 1, 18, 8, 0},       /* naf n=4 a=1 f=18 w=8: the second holds 13 */
        {7, 4, 0, 0, 4, 2},        /* scan n=4 a=0 f=0 to=4 limit=2: 5 and 13 are saved in the buffer */
        {4, 0, 0, 0, 0, 0},        /* c: all registers are 0 */
        {11, 4, 0, 4, 2, 0},       /* the buffer's two words are put back, from n=4 a=0 to=4 */
        {7, 4, 0, 0, 4, 2},        /* scan n=4 a=0 f=0 to=4 limit=2: they are there again */
    };
    enum { COUNT = sizeof steps / sizeof steps[0], PUT_BACK = 11 };
    static uint32_t memory[PAGONTXU_MEMORY_WORDS];
    static uint32_t buffer[PAGONTXU_BUFFER_WORDS];
    uint32_t answer[PAGONTXU_ANSWER_WORDS];

    if (set_up(memory) != PAGONTXU_FINE)
        return 1;
    for (size_t k = 0; k < COUNT; k++) {
        pagontxu_step(memory, PAGONTXU_MEMORY_WORDS, steps[k], PAGONTXU_STEP_WORDS, answer, PAGONTXU_ANSWER_WORDS, buffer, PAGONTXU_BUFFER_WORDS);
        print_answer(answer, buffer);
    }

    /* A run line that is refused: no command goes to station 25. */
    const char *line = "op=naf n=25 a=0 f=0 w=0";
    pagontxu_run_line(memory, PAGONTXU_MEMORY_WORDS, (const uint8_t *)line, strlen(line), answer, PAGONTXU_ANSWER_WORDS, buffer, PAGONTXU_BUFFER_WORDS);
    print_answer(answer, buffer);

    /* The same steps as a list on a second crate: it ends as the first did. Each step has a buffer of its own, so the saved words go into that of the put. */
    static uint32_t second[PAGONTXU_MEMORY_WORDS];
    static uint32_t answers[COUNT * PAGONTXU_ANSWER_WORDS];
    static uint32_t buffers[COUNT * PAGONTXU_BUFFER_WORDS];
    if (set_up(second) != PAGONTXU_FINE)
        return 1;
    memcpy(buffers + PUT_BACK * PAGONTXU_BUFFER_WORDS, buffer, sizeof buffer);
    uint32_t number = pagontxu_list(second, PAGONTXU_MEMORY_WORDS, COUNT, steps[0], COUNT * PAGONTXU_STEP_WORDS, answers,
                                    COUNT * PAGONTXU_ANSWER_WORDS, buffers, COUNT * PAGONTXU_BUFFER_WORDS);
    printf("list=%" PRIu32 " alike=%d\n", number, memcmp(memory, second, sizeof memory) == 0);
    return 0;
}
