/* host [FILE]: plays a day file, or standard input, and prints its lines.
 * Status 1, with a message, when the file cannot be read, memory is short or the lines cannot be printed. A fault of
 * the file is no such case: its last line tells it. */
#include "odd_lot_day.h"

#include <errno.h>
#include <stdio.h>
#include <stdlib.h>
#include <string.h>

static int fail(const char *what, const char *why) {
    fprintf(stderr, "host: %s: %s\n", what, why);
    return EXIT_FAILURE;
}

/* Plays the file into twice as many output bytes each time until its lines fit, and prints them. */
static int play_and_print(const uint8_t *file, size_t file_len) {
    size_t out_len = 4096;
    uint8_t *out = NULL;
    uint64_t answer;
    do {
        free(out);
        out_len *= 2;
        out = malloc(out_len);
        if (out == NULL) {
            return fail("output", "out of memory");
        }
        answer = odd_lot_play(file, file_len, out, out_len);
    } while (ODD_LOT_FAULT(answer) == ODD_LOT_OUTPUT_SHORT);

    int status = EXIT_SUCCESS;
    size_t written = ODD_LOT_WRITTEN(answer);
    if (ODD_LOT_FAULT(answer) == ODD_LOT_NO_MEMORY) {
        status = fail("order book", "out of memory");
    } else if (fwrite(out, 1, written, stdout) != written || fflush(stdout) != 0) {
        status = fail("standard output", strerror(errno));
    }
    free(out);
    return status;
}

int main(int argc, char **argv) {
    static uint8_t file[ODD_LOT_FILE_MAX + 1]; /* one byte more, which a file that is too long shows */
    const char *name = argc > 1 ? argv[1] : "standard input";
    FILE *from = argc > 1 ? fopen(name, "rb") : stdin;
    if (from == NULL) {
        return fail(name, strerror(errno));
    }
    size_t file_len = fread(file, 1, sizeof file, from);
    if (ferror(from)) {
        return fail(name, strerror(errno));
    }
    fclose(from);
    return play_and_print(file, file_len);
}
