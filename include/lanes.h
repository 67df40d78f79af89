/* The lane translator, called from C. Link with liblanes.a.
 *
 * A kernel file, a schedule and an output buffer are each a pointer and a length in bytes. A pointer is never NULL,
 * also where the length is 0. The buffers of one call do not overlap. A call keeps no pointer and needs no memory but
 * stack: measured on x86-64 and the longest kernel, lanes_lower1, lanes_lower2 and lanes_lower3 5,096 bytes, lanes_page
 * 11,768, lanes_run_source 9,496, lanes_run_tso and lanes_run_pso 14,360.
 *
 * Answer: a success is the number of bytes written, below 2^32. A refusal is number * 2^32 + record, the record being
 * 0 where none is named. After a refusal the output buffer is as it was; after a success the bytes behind the result
 * are as they were.
 *
 *   1 file under 16 bytes                   7 a SKIP whose target is not later in its lane
 *   2 bad header                            8 a lock taken or released against the rule
 *   3 bad length                           12 a lock taken while one that is not below it is held
 *   4 bad record                            9 the output buffer is shorter than the result
 *   5 a record in no lane, or met twice    10 a move with no such lane or choice, or an odd number of bytes
 *   6 a chain of more than 64 records
 *
 * Checks are made in this order, 8 in every lane before 12 in any, and 10 over the whole schedule before its first
 * move. Refusal 11, the release of a lock that is not held, is never given: no kernel that passes 1 to 8 meets it.
 * docs/FORMATS.md has the layouts. */
#ifndef LANES_H
#define LANES_H

#include <stddef.h>
#include <stdint.h>

#ifdef __cplusplus
extern "C" {
#endif

/* What every sheet of a level fits in: 16 bytes and 8 for each instruction, of which a lane has at most three for each
 * of its 64 records at level 1, since at most two barriers stand before an access, and two at levels 2 and 3. */
#define LANES_SHEET1_MAX 6160
#define LANES_SHEET2_MAX 4112
#define LANES_SHEET3_MAX 4112

/* What the pages of every kernel fit in: at most 512 instructions on at most 10 pages, a line of 33 bytes for each. */
#define LANES_PAGE_MAX 17226

/* A state record has this many bytes. */
#define LANES_STATE_SIZE 2280

/* Stack that is enough for every call, in bytes. */
#define LANES_STACK 16384

/* The number of a refusal, 0 for a success; and the record that it names. */
#define LANES_NUMBER(answer) ((uint32_t)((answer) >> 32))
#define LANES_RECORD(answer) ((uint32_t)(answer))

/* The sheets of a kernel file: the barrier sheet (level 1); the x86 sheet with MFENCE (level 2); the Sparc PSO sheet
 * with SS and the store-load barrier (level 3). Levels 2 and 3 have no store-load barrier directly before a LOCK. */
uint64_t lanes_lower1(const uint8_t *kernel, size_t kernel_len, uint8_t *sheet, size_t sheet_len);
uint64_t lanes_lower2(const uint8_t *kernel, size_t kernel_len, uint8_t *sheet, size_t sheet_len);
uint64_t lanes_lower3(const uint8_t *kernel, size_t kernel_len, uint8_t *sheet, size_t sheet_len);

/* The x86 sheet as pages of text for a binder: lines of 32 characters and a newline, on each page a heading and up to
 * 55 instructions, each with its lane, position, name and fields, and an operation with the record that it comes from.
 * docs/FORMATS.md has the columns. */
uint64_t lanes_page(const uint8_t *kernel, size_t kernel_len, uint8_t *page, size_t page_len);

/* A schedule run from the start: on the source machine over the kernel, on the tso machine (x86-TSO) over its level 2
 * sheet and on the pso machine (Sparc PSO) over its level 3 sheet. A move is two bytes: the lane, then the choice, of
 * which 0 carries out the lane's next instruction and k, up to 64, on the tso machine 1, commits its k-th oldest
 * pending entry. `state` receives the state record at the end. Its first byte is 1 where the run is finished: every
 * lane stands at its end and nothing is pending, so that no further move changes its memory. Until then some lane has
 * a permitted move with choice 0 or 1, and at most twice as many moves are done as the lanes have instructions: whoever
 * goes on with permitted moves finishes. */
uint64_t lanes_run_source(const uint8_t *kernel, size_t kernel_len, const uint8_t *moves, size_t moves_len,
                          uint8_t *state, size_t state_len);
uint64_t lanes_run_tso(const uint8_t *kernel, size_t kernel_len, const uint8_t *moves, size_t moves_len,
                       uint8_t *state, size_t state_len);
uint64_t lanes_run_pso(const uint8_t *kernel, size_t kernel_len, const uint8_t *moves, size_t moves_len,
                       uint8_t *state, size_t state_len);

#ifdef __cplusplus
}
#endif

#endif
