/* Lustrejasper: Event-B predicates as frames, checked, stepped and run. docs/PROMISES.md says what is proved of each function.
 *
 * Build the archive with `tools/build lustrejasper_c` and link target/staticlib/liblustrejasper.a. It needs nothing but a C library,
 * and is for x86-64 Linux. The crate lustrejasper_c exports the functions: a slice is passed as a pointer and then a length.
 *
 * What the caller sees to, since nothing checks it:
 *   - `frame` points to `frame_len` bytes that nobody writes during the call, `out` to `out_len` bytes that nobody else reads or
 *     writes during it. The two are apart: no byte is in both.
 *   - Neither pointer is NULL, even where its length is 0.
 *   - 2 MiB of stack are free (measured, not proved).
 * Everything else is the library's: any bytes may stand in `frame`, and any lengths, places and budgets may be given.
 * The functions keep nothing between calls, so threads may call them at the same time.
 */
#ifndef LUSTREJASPER_H
#define LUSTREJASPER_H

#include <stddef.h>
#include <stdint.h>

#ifdef __cplusplus
extern "C" {
#endif

/* The bytes of the longest frame; a run asks for an output of so many. */
#define LUSTREJASPER_FRAME_LIMIT 4096

/* The numbers that something is refused with, the first that applies (1 is for lines of text):
 *    2  the frame has no byte or more than 4,096
 *    3  the bytes end inside a node or type; 3 to 6 go by the first met, from left to right
 *    4  a tag isn't listed, or a predicate stands where an expression must, or the reverse
 *    5  a count is outside its range
 *    6  a type byte is above 04, or 64 bytes leave a type unfinished
 *    7  bytes follow the root's end
 *    8  a bound index has no binder
 *    9  an identifier has two types, or is a given set's and its type isn't the power of that set
 *   10  a node breaks a typing rule or its type passes 64 bytes
 *   11  a step's place is no node, or an expression
 *   12  a step's result passes 4,096 bytes or the output; or a run's output has under 4,096 bytes */

/* 0 if the frame is accepted, else its number, 2 to 10. */
uint64_t lustrejasper_check(const uint8_t *frame, size_t frame_len);

/* One step at a place: 65,536 x word + value. The new frame stands at the start of `out`; every other byte of it is as before. */
uint64_t lustrejasper_step(const uint8_t *frame, size_t frame_len, uint64_t place, uint8_t *out, size_t out_len);

#define LUSTREJASPER_UNCHANGED 0u    /* the value is 0 */
#define LUSTREJASPER_CHANGED 1u      /* the value is the new frame's length */
#define LUSTREJASPER_STEP_REFUSED 2u /* the value is the number, 2 to 12 */

#define LUSTREJASPER_STEP_WORD(answer) ((unsigned)((answer) >> 16))
#define LUSTREJASPER_STEP_VALUE(answer) ((size_t)((answer) & 0xFFFFu))

/* Steps at the first place where a rule applies, `budget` of them at most: 2^48 x word + 2^32 x length + count. The last frame
 * stands at the start of `out`, which has 4,096 bytes at least; every other byte of it is as before. */
uint64_t lustrejasper_run(const uint8_t *frame, size_t frame_len, uint32_t budget, uint8_t *out, size_t out_len);

#define LUSTREJASPER_REST 1u        /* no rule applies anywhere */
#define LUSTREJASPER_SPENT 2u       /* the budget is used, and some rule still applies */
#define LUSTREJASPER_FULL 3u        /* the next step would pass 4,096 bytes */
#define LUSTREJASPER_RUN_REFUSED 4u /* the length is 0 and the count is the number, 2 to 10 or 12 */

#define LUSTREJASPER_RUN_WORD(answer) ((unsigned)((answer) >> 48))
#define LUSTREJASPER_RUN_LENGTH(answer) ((size_t)((answer) >> 32 & 0xFFFFu))
#define LUSTREJASPER_RUN_COUNT(answer) ((uint32_t)((answer) & 0xFFFFFFFFu))

#ifdef __cplusplus
}
#endif

#endif
