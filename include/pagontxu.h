/* pagontxu.h: a rehearsal of a CAMAC crate, for programs in C, Fortran or Python.
 *
 * The rules are those of document 01, "The CAMAC rehearsal crate", and of document 02, requests L1 to L9; docs/RULES.md has them, numbered. Each function is
 * proved to return and to leave what its definition in crates/capi/specs/Calls.antt says, for any contents and any lengths of the arrays that it is lent.
 *
 * Build the archive with `./build.sh library` and link target/staticlib/libcapi.a (x86-64 Linux). The library keeps no state, allocates nothing
 * and asks of the C library no more than memset: two threads may call it at once on different arrays.
 *
 * What the caller sees to:
 *   - each pointer is not NULL, also where its length is 0, and points to at least as many words (or bytes) as the length says;
 *   - words are aligned as a uint32_t;
 *   - an array that a function may change shares no word with another array of the same call;
 *   - nothing else writes to the arrays while the call runs.
 * Lengths of memory, steps, answers and buffers are in words of 32 bits, those of lines in bytes.
 *
 * THE CRATE MEMORY: 768 words, 24 blocks of 32. All 0 is a fit, empty crate with Inhibit off: start from that.
 *   block 0: word 0 is Inhibit I (0 or 1), word 1 the Station Number Register, any number of 23 bits (0 to 8388607), the rest 0
 *   block N, words 32 N to 32 N + 31, is station N, 1 to 23:
 *     word 0        kind: 0 empty, 1 scaler, 2 output register, 3 input register, 4 buffer memory, 5 up-down counter
 *     word 1        r, the register count: 1 to 16; of a buffer memory 1; of an empty station 0
 *     word 2        LAM status: bit A belongs to source A, bit 0 is the lowest
 *     word 3        LAM mask
 *     word 4        head, 0 to 15, of a buffer memory, else 0
 *     word 5        fill, 0 to 16, of a buffer memory, else 0
 *     word 6        width in stations: 1 or 2; of an empty station 0, covered or not
 *     word 7        1 where the station is covered, that is where word 6 of block N - 1 is 2; else 0
 *     words 8 to 15 0
 *     words 16 to 31  registers 0 to 15, 24 bits each; those at r and above are 0, but for a buffer memory
 *   A covered station is empty, and no module in station 23 is two stations wide.
 *   A memory that is not so, or is not 768 words long, is unfit: refusal 9.
 *
 * A MODULE TWO STATIONS WIDE stands in station N, where it answers, and covers N + 1. The covered station answers as an empty one: X = Q = R = 0, the digit 0
 * to a front event, no bit of L, and nothing changes. A scan or a put crosses it with one cycle, a Repeat or a Stop ends 3 there.
 *
 * A STEP: six words. Word 0 says which step it is; its fields follow in the order of the run file's line; the words after them are not looked at.
 *   1 naf     n a f w             a command: station (or 24, 26, 28, 30: below), subaddress, function, write word
 *   2 front   n a v               a front event
 *   3 z                           Initialize
 *   4 c                           Clear
 *   5 i       v                   Inhibit to 0 or 1
 *   6 lam                         the Look-at-Me reading
 *   7 scan    n a f to limit      Address Scan
 *   8 repeat  n a f limit tries   Repeat
 *   9 stop    n a f limit         Stop
 *  10 put     n a to limit w      a put of one word: w, `limit` times; it needs no buffer
 *  11         n a to limit        a put of lent words: the first `limit` words of the buffer; a run file has no line for it
 *  12 within  n to lo hi          a listing of the registers inside a window
 *  17 to 19   fields of 7 to 9    scan, Repeat and Stop at the trigger processor's entry; a run file has no line for them
 *   any other word 0 is garbled: refusal 1.
 *
 * A COMMAND goes by its n:
 *   1 to 23              to that station
 *   24                   to each station whose bit is set in the Station Number Register: bit N - 1 belongs to station N
 *   26                   to all 23 stations
 *   28, a = 8, f = 26    is Z: what step 3 does. I becomes 1, the Station Number Register 0
 *   28, a = 9, f = 26    is C: what step 4 does. The Station Number Register stays as it is
 *   30, a = 9, f = 24    I becomes 0
 *   30, a = 9, f = 26    I becomes 1
 *   30, a = 9, f = 27    changes nothing, and tells I
 *   30, a = 8, f = 16    the Station Number Register becomes w, 23 bits
 *   28 and 30, all else  is not accepted, and changes nothing
 * With 24 and 26 each station does the command as if it were sent to it alone, and X, Q and R are each the OR of theirs: all 0 where no station is addressed,
 * or none accepts. With 28 and 30 X is 1, Q 0 (for f = 27: I) and R 0; not accepted they are all 0, which is an answer, and no refusal: the call returns 0.
 *
 * A PUT is a write scan: the path of a scan, with F16. Each cycle offers the first word not used up, and Q = 1 uses it up. End 1: all `limit` words are
 * used up. End 2: past `to`. A put of lent words reads the buffer; both puts leave it as it is.
 *
 * A SCAN OR A PUT makes at most words + (to - n + 1) cycles. A scan with f = 0 from a = 0 that ends 2 has stored all that its stations hold for F0: registers
 * 0 to r-1 of each, stations ascending; of a buffer memory its oldest word, if it has one.
 *
 * A REPEAT OR A STOP ends 3 at the first cycle with X = 0, that cycle counted: nothing there answers. So it does wherever a is r or above, that is at every a
 * of an empty station, covered or not, and at a = 1 to 15 of a buffer memory, and nowhere else: with 0 words and 1 cycle, and memory and buffer stay as they
 * were.
 *
 * AT THE TRIGGER PROCESSOR'S ENTRY limit is 1 to 32: 33 to 512 is refused with 13, in the place where 7 is checked; 0 and above 512 are 7, as in 7 to 9. Else a
 * step 17, 18 or 19 is the step 7, 8 or 9 with the same fields: the same refusals, answer, memory and buffer. A processor's step and the same general one may
 * stand in one list.
 *
 * A LISTING finds each register below r of scalers, input registers and up-down counters, from station n to `to`, whose value lies from lo to hi, both included;
 * the value is unsigned, so a counter at -1 is 16777215. It is listed by its number, 16 times its station plus its subaddress, in the first words of the buffer,
 * ascending. The buffer has at least 16 words a station, 16 * (to - n + 1), however short the list is. The memory stays as it was. Refusals in this order:
 * 9, 2, 6, 5 for lo, 5 for hi, 14, 8.
 *
 * AN ANSWER: four words.
 *   0 refused               the refusal number, 0, 0
 *   1 a command             X, Q, R, whatever its n, also where it is not accepted
 *   2 a front event         its digit, 0, 0
 *                           0  not taken: I is 1, a is r or above, or the station is empty or an output register
 *                           1  taken, and no status bit of the station went from 0 to 1
 *                           2  taken, and a status bit of the station went from 0 to 1, masked or not
 *                           3  its word was lost in a full buffer memory, whether status bit 1 was set before or not
 *   3 Z, C or I             1, 0, 0
 *   4 Look-at-Me reading    L, count, first
 *   5 scan, Repeat or Stop  end, words, cycles; the words are in the buffer, which keeps what it held past them
 *                           end 1  `limit` words are stored; tested before all else
 *                           end 2  of a scan: past `to`; of a Repeat: `tries` cycles are made; of a Stop: Q = 0, that cycle counted
 *                           end 3  of a Repeat or a Stop: X = 0, that cycle counted; where end 2 applies too, it is 3
 *   6 a put                 end, words used up, cycles
 *   7 a listing             how many registers it lists, 0, 0; their numbers are in the buffer, which keeps what it held past them
 *
 * A REFUSAL changes nothing in the memory or the buffers. Each function returns 0, or the number of its refusal:
 */
#ifndef PAGONTXU_H
#define PAGONTXU_H

#include <stddef.h>
#include <stdint.h>

#ifdef __cplusplus
extern "C" {
#endif

enum pagontxu_refusal {
    PAGONTXU_FINE = 0,
    PAGONTXU_GARBLED = 1,             /* a line in no form of docs/RULES.md, 7, or a step's word 0 that is none of the above */
    PAGONTXU_NO_SUCH_STATION = 2,     /* N outside 1 to 23; in a command 24, 26, 28 and 30 are good too */
    PAGONTXU_NO_SUCH_SUBADDRESS = 3,  /* A above 15 */
    PAGONTXU_NO_SUCH_FUNCTION = 4,    /* F above 31; in a transfer, not 0, 2, 3 */
    PAGONTXU_OVERWIDE_WORD = 5,       /* w, v, lo or hi above 16777215; for I, v above 1; w of a command to n = 30, a = 8, f = 16 above 8388607;
                                         in a put of lent words, after 8, one of these above 16777215 */
    PAGONTXU_CROSSED_RANGE = 6,       /* `to` below N or above 23 */
    PAGONTXU_BAD_LENGTH = 7,          /* limit outside 1 to 512, tries outside 1 to 4096 */
    PAGONTXU_SHORT_BUFFER = 8,        /* fewer than limit words of buffer (a put of one word needs none), in a listing fewer than 16 a station; or a step,
                                         answer, or list array with too few words */
    PAGONTXU_UNFIT_CRATE = 9,         /* the memory is not fit; comes before all else */
    PAGONTXU_BAD_MODULE = 10,         /* a crate line's kind outside 1 to 5, r not of its kind, wide not 1 or 2, or wide 2 in station 23 */
    PAGONTXU_OUT_OF_ORDER = 11,       /* a crate line's station not above that of the line before */
    PAGONTXU_COVERED_STATION = 12,    /* a crate line's station is covered: its word 7 is 1 */
    PAGONTXU_LONG_TRANSFER = 13,      /* limit 33 to 512 at the trigger processor's entry */
    PAGONTXU_CROSSED_WINDOW = 14      /* lo above hi */
};

enum pagontxu_answer {
    PAGONTXU_REFUSED = 0,
    PAGONTXU_REPLIED = 1,
    PAGONTXU_TAKEN = 2,
    PAGONTXU_DONE = 3,
    PAGONTXU_LOOKED = 4,
    PAGONTXU_TRANSFERRED = 5,
    PAGONTXU_WROTE = 6,
    PAGONTXU_LISTED = 7
};

enum {
    PAGONTXU_MEMORY_WORDS = 768,
    PAGONTXU_BLOCK_WORDS = 32,
    PAGONTXU_STEP_WORDS = 6,
    PAGONTXU_ANSWER_WORDS = 4,
    PAGONTXU_BUFFER_WORDS = 512       /* of each step of a list */
};

/* One line of a crate file, `n= kind= r= wide=`, without its LF: puts a module into the memory. `previous` is the station of the line before, 0 before the
 * first. Refusals in this order: 9, 1, 2, 11, 12, 10. Block n gets kind, r and width and is else 0; where wide is 2, block n + 1 becomes empty and covered;
 * in the block after these, if it is a station's, word 7 becomes 0. No other word changes. So a line over an occupied station replaces what stands in the
 * stations that its module fills, with the cover that this laid, and the memory stays fit. */
uint32_t pagontxu_crate_line(uint32_t *memory, size_t memory_len, uint32_t previous, const uint8_t *line, size_t line_len);

/* One line of a run file, as `op=naf n=3 a=0 f=2 w=0`, without its LF. The answer goes into the first four words of `answer`, a refusal too; words past
 * them keep their contents. A scan, Repeat, Stop or listing stores its words in `buffer`; other steps leave it as it is, and its length may be 0.
 * Refusals in this order: 9; 8 where `answer` has fewer than four words, which then keep their contents; then the line's own, 8 for a short buffer last. */
uint32_t pagontxu_run_line(uint32_t *memory, size_t memory_len, const uint8_t *line, size_t line_len, uint32_t *answer, size_t answer_len,
                           uint32_t *buffer, size_t buffer_len);

/* One step of six words; words of `step` past them are not looked at. As pagontxu_run_line; 8, after 9, also where `step` has fewer than six words.
 * A put of lent words finds them in `buffer`, and is refused last of all with 8, then 5; words of `buffer` past the first `limit` are not looked at. */
uint32_t pagontxu_step(uint32_t *memory, size_t memory_len, const uint32_t *step, size_t step_len, uint32_t *answer, size_t answer_len,
                       uint32_t *buffer, size_t buffer_len);

/* A list of `count` steps, done in turn. Step k, from 0, has words 6 k to 6 k + 5 of `steps`, 4 k to 4 k + 3 of `answers` and 512 k to 512 k + 511 of
 * `buffers`, in which a put of lent words finds its own; words past those of the last step keep their contents. Returns 9 or 8 where the memory is not fit
 * or too few words are lent: then nothing changes, the answers included. Else it returns 0; a step that is refused says so in its answer, and the run goes on. */
uint32_t pagontxu_list(uint32_t *memory, size_t memory_len, size_t count, const uint32_t *steps, size_t steps_len, uint32_t *answers,
                       size_t answers_len, uint32_t *buffers, size_t buffers_len);

#ifdef __cplusplus
}
#endif

#endif
