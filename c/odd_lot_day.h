/* The odd-lot day for hosts in C: one trading day of one stock under NYSE Rule 124, played from a day file.
 *
 * Link with two archives, in this order: the library's, target/staticlib/libplay.a, and the kit's helpers in C.
 * tests/archive makes the first where needed, and prints both:
 *     gcc -Ic yours.c $(tests/archive)
 * c/host.c is an example. Day files, printed lines and faults are described in docs/DAY-FILES.md. */
#ifndef ODD_LOT_DAY_H
#define ODD_LOT_DAY_H

#include <stddef.h>
#include <stdint.h>

#ifdef __cplusplus
extern "C" {
#endif

/* What the answer of odd_lot_play says beside the count of bytes. Refused records do not show here: each has a line
 * `R k n` of its own. */
enum {
    ODD_LOT_PLAYED = 0,         /* the file has no fault, and all its lines are written */
    ODD_LOT_FILE_TOO_LONG = 15, /* the file is longer than ODD_LOT_FILE_MAX bytes */
    ODD_LOT_FILE_CUT = 16,      /* the file ends inside a word or a record, or is empty */
    ODD_LOT_BAD_WORD = 17,      /* a word's kind cannot stand there, or its unused bits are not zero */
    ODD_LOT_OUTPUT_SHORT = 18,  /* the output bytes end before the lines do, whether the file has a fault or not */
    ODD_LOT_NO_MEMORY = 31      /* there is no memory for the order book; nothing is written */
};

/* Taking an answer apart: the bytes written, and one of the numbers above. */
#define ODD_LOT_WRITTEN(answer) ((size_t)((answer) / 32))
#define ODD_LOT_FAULT(answer) ((int)((answer) % 32))

/* The longest day file, in bytes. A longer one has fault 15 whatever its content, so a host need not read more than
 * one byte beyond this. */
#define ODD_LOT_FILE_MAX 65536

/* So many output bytes are enough for every file, so that the answer is never ODD_LOT_OUTPUT_SHORT:
 *   - A record has at least one word of 4 bytes: 65,536 / 4 = 16,384 records at most.
 *   - Each record accounts for one line at most. A refused record has its line R. An accepted order has one row at
 *     most, its fill or its lapse, since it is then no longer live. Accepted records of other sorts have no line:
 *     the rows that they cause are those of orders.
 *   - The longest of these lines is a row, `16383 1 99 200000000 2`: 5 + 1 + 2 + 9 + 1 digits, 4 spaces and the line
 *     feed are 23 bytes. An R line, `R 16384 9`, has at most 10.
 *   - One line ends the text. T has at most 28 bytes: the shares are within 16,384 x 99 = 1,622,016, a sign and 7
 *     digits, and the money within 1,622,016 x 200,000,000, a sign and 15 digits. An X line has at most 11.
 * Together 16,384 x 23 + 28 = 376,860. A host that would rather begin with less can double its output for as long as
 * the answer is ODD_LOT_OUTPUT_SHORT, and play the file again. */
#define ODD_LOT_OUT_ENOUGH 376860

/* Plays the day file in file[0 .. file_len) over a fresh day and a fresh totals ledger at zero, and writes its text
 * lines to out[0 .. out_len). Answers bytes written * 32 + n, n being a number of the list above.
 *
 * Written: the leading whole lines that fit, from out[0] on. The first line that does not fit ends the writing; no
 *   line is written in part. Every line ends with a line feed. There is no zero byte at the end.
 * Kept: the output behind the bytes written, and the file. Neither pointer is kept after the call.
 * n: ODD_LOT_OUTPUT_SHORT when a line did not fit, else the file's fault, else ODD_LOT_PLAYED. An output that is
 *   exactly full is not short. Output that is short may be played again into a longer one, with the same leading
 *   lines.
 * Memory: the call takes some 20 kilobytes for the order book and gives them back. Where there are none, n is
 *   ODD_LOT_NO_MEMORY and nothing is written. A file that is too long needs no book: fault 15 comes first.
 * Pointers: each of the two must be valid for its length and must not be null, also where the length is 0. They may
 *   be unaligned. The two areas must not overlap.
 * Threads: no state is left between calls, and none is shared. Several threads may call at the same time, each with
 *   an output of its own; they may share a file as long as nobody changes it. */
uint64_t odd_lot_play(const uint8_t *file, size_t file_len, uint8_t *out, size_t out_len);

#ifdef __cplusplus
}
#endif

#endif
