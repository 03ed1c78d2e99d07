/* The negation of S \ T = {} as a frame, through the library: checked, one step, and run to its end. */
#include <stdio.h>

#include "lustrejasper.h"

static void print_frame(const char *what, const uint8_t *frame, size_t length)
{
    printf("%s ", what);
    for (size_t i = 0; i < length; i++)
        printf("%02X", frame[i]);
    printf("\n");
}

int main(void)
{
    /* S and T are identifiers 1 and 2 of type POW(BOOL) */
    const uint8_t frame[] = {0x02, 0xBD, 0x00, 0x65, 0x00, 0xD5, 0x00, 0x01, 0x00, 0x01, 0x03, 0x00,
                             0x00, 0x01, 0x00, 0x02, 0x03, 0x00, 0x01, 0x97, 0x03, 0x00};
    uint8_t out[LUSTREJASPER_FRAME_LIMIT];

    print_frame("frame", frame, sizeof frame);
    printf("check %u\n", (unsigned)lustrejasper_check(frame, sizeof frame));
    printf("check of its first 10 bytes %u\n", (unsigned)lustrejasper_check(frame, 10));

    /* place 1 is the equation below the negation */
    uint64_t step = lustrejasper_step(frame, sizeof frame, 1, out, sizeof out);
    if (LUSTREJASPER_STEP_WORD(step) == LUSTREJASPER_CHANGED)
        print_frame("step at place 1", out, LUSTREJASPER_STEP_VALUE(step));

    /* place 2 is an expression */
    step = lustrejasper_step(frame, sizeof frame, 2, out, sizeof out);
    if (LUSTREJASPER_STEP_WORD(step) == LUSTREJASPER_STEP_REFUSED)
        printf("step at place 2 refused %u\n", (unsigned)LUSTREJASPER_STEP_VALUE(step));

    uint64_t run = lustrejasper_run(frame, sizeof frame, 65535, out, sizeof out);
    if (LUSTREJASPER_RUN_WORD(run) == LUSTREJASPER_REST) {
        printf("run REST %u", (unsigned)LUSTREJASPER_RUN_COUNT(run));
        print_frame("", out, LUSTREJASPER_RUN_LENGTH(run));
    }

    run = lustrejasper_run(frame, sizeof frame, 65535, out, 100);
    if (LUSTREJASPER_RUN_WORD(run) == LUSTREJASPER_RUN_REFUSED)
        printf("run with 100 bytes of output refused %u\n", (unsigned)LUSTREJASPER_RUN_COUNT(run));
    return 0;
}
