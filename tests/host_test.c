/* host_test: tests of the C entry, run by checks/host. What is due is worked out by hand from docs/DAY-FILES.md
 * and docs/RULES.md, and never taken from the library. Prints a line for each group of checks. Status 1 where a check fails.
 * It is linked with -Wl,--wrap=malloc, so that a group can let the library find no memory. */
#include "../c/odd_lot_day.h"

#include <pthread.h>
#include <stdio.h>
#include <stdlib.h>
#include <string.h>

enum { PATTERN = 0xA5, MARGIN = 16 };

static unsigned checks, failures;

static void check(int holds, const char *what, size_t at) {
    checks++;
    if (!holds) {
        failures++;
        printf("host_test: WRONG: %s (%zu)\n", what, at);
    }
}

static void group(const char *name) {
    static unsigned before;
    printf("host_test: %s: %u checks\n", name, checks - before);
    before = checks;
}

/* The memory of the library: none while no_memory is set. */
static int no_memory;
void *__real_malloc(size_t size);
void *__wrap_malloc(size_t size);
void *__wrap_malloc(size_t size) { return no_memory ? NULL : __real_malloc(size); }

static uint8_t *memory(size_t size) {
    uint8_t *got = malloc(size);
    if (got == NULL) {
        fprintf(stderr, "host_test: out of memory\n");
        exit(1);
    }
    return got;
}

/* Plays a file into an output of this length, `offset` bytes behind an aligned place, and checks that the output
 * then holds these lines and nothing more, that the bytes around it are kept, and the answer. */
static void check_play(const char *what, size_t at, const uint8_t *file, size_t file_len, size_t out_len,
                       size_t offset, const char *lines, size_t written, int fault) {
    size_t size = MARGIN + offset + out_len + MARGIN;
    uint8_t *area = memory(size), *due = memory(size), *out = area + MARGIN + offset;
    memset(area, PATTERN, size);
    memset(due, PATTERN, size);
    memcpy(due + MARGIN + offset, lines, written);
    uint64_t answer = odd_lot_play(file, file_len, out, out_len);
    check(answer == (uint64_t)written * 32 + (uint64_t)fault, what, at);
    check(ODD_LOT_WRITTEN(answer) == written && ODD_LOT_FAULT(answer) == fault, what, at);
    check(memcmp(area, due, size) == 0, what, at);
    free(area);
    free(due);
}

/* The same with room to spare. */
static void check_lines(const char *what, size_t at, const uint8_t *file, size_t file_len, const char *lines,
                        int fault) {
    check_play(what, at, file, file_len, strlen(lines) + 100, 0, lines, strlen(lines), fault);
}

/* A file in the making: words, the first byte highest. */
struct file {
    uint8_t bytes[ODD_LOT_FILE_MAX + 1];
    size_t len;
};

static void put(struct file *file, uint32_t word) {
    for (int shift = 24; shift >= 0; shift -= 8) {
        file->bytes[file->len++] = (uint8_t)(word >> shift);
    }
}

/* ---- the example of docs/DAY-FILES.md */

static const uint32_t example_words[] = {
    0xC000000A, 0xD0030958, 0xE0000001, /* start: unit 10, prior close 199000, tag 1 */
    0x1209D9C0,                         /* clock 34200000 */
    0x80030D40, 0xA000000A,             /* opening 200000, volume 10 */
    0x20010109,                         /* order 1: buy, market, 9 shares */
    0x20010109,                         /* order 2: buy, market, 9 shares */
    0x20010205, 0x30030D40,             /* order 3: buy, limit, 5 shares, at 200000 */
    0x90030D40, 0xA000000A,             /* trade 200000, volume 10 */
    0x90030CDC, 0xA000000A,             /* trade 199900, volume 10 */
    0x50000003,                         /* cancel 3 */
    0xB0000000,                         /* close */
};
static const char example_lines[] = "1 1 9 200000 2\n"
                                    "2 1 9 200000 2\n"
                                    "3 1 5 199900 2\n"
                                    "R 9 9\n"
                                    "T -23 4599500\n";
static struct file example;

static void make_example(void) {
    for (size_t i = 0; i < sizeof example_words / sizeof *example_words; i++) {
        put(&example, example_words[i]);
    }
}

static void test_example(void) {
    uint8_t out[100];
    check(example.len == 64, "the example has 64 bytes", example.len);
    check(odd_lot_play(example.bytes, example.len, out, sizeof out) == 2080, "the example's answer is 2080", 0);
    check(odd_lot_play(example.bytes, example.len, out, 40) == 978, "with 40 bytes the answer is 978", 0);
    check_lines("the example", 0, example.bytes, example.len, example_lines, 0);
    group("the example");
}

/* The lines end at these bytes. An output of any length takes the lines that end within it. */
static void test_every_length(void) {
    static const size_t ends[] = {0, 15, 30, 45, 51, 65};
    for (size_t out_len = 0; out_len <= 66; out_len++) {
        size_t line = 5;
        while (ends[line] > out_len) {
            line--;
        }
        int fault = line == 5 ? 0 : 18;
        check_play("an output of this length", out_len, example.bytes, example.len, out_len, 0, example_lines,
                   ends[line], fault);
        /* and in a block of just this length, for the tools that watch its ends */
        uint8_t *exact = memory(out_len == 0 ? 1 : out_len);
        uint64_t answer = odd_lot_play(example.bytes, example.len, exact, out_len);
        check(answer == ends[line] * 32 + (uint64_t)fault, "a block of this length", out_len);
        check(memcmp(exact, example_lines, ends[line]) == 0, "a block of this length", out_len);
        free(exact);
    }
    group("every output length");
}

static void test_unaligned(void) {
    for (size_t offset = 0; offset < 64; offset++) {
        size_t of_file = offset % 8, of_out = offset / 8;
        uint8_t *block = memory(of_file + example.len); /* the file ends with the block */
        memcpy(block + of_file, example.bytes, example.len);
        check_play("buffers at offset", offset, block + of_file, example.len, 65, of_out, example_lines, 65, 0);
        check_play("buffers at offset", offset, block + of_file, example.len, 64, of_out, example_lines, 51, 18);
        check(memcmp(block + of_file, example.bytes, example.len) == 0, "the file is kept", offset);
        free(block);
    }
    group("unaligned buffers");
}

/* ---- faults: words behind a complete start, bytes of a last word that is cut, and the lines */

#define START 0xC000000A, 0xD0030958, 0xE0000001

struct fault_case {
    uint32_t words[12];
    size_t count; /* of the words */
    size_t more;  /* bytes of one more word, whose bytes are those of `cut` */
    uint32_t cut;
    const char *lines;
    int fault;
};

static const struct fault_case fault_cases[] = {
    /* those of docs/DAY-FILES.md, section 3 */
    {{0}, 0, 0, 0, "X 0 16\n", 16},
    {{0xC000000A, 0xD0030958}, 2, 0, 0, "X 0 16\n", 16},
    {{0x1209D9C0}, 1, 0, 0, "X 0 17\n", 17},
    {{START, START}, 6, 0, 0, "X 12 17\n", 17},
    {{START, 0x20010205}, 4, 0, 0, "X 12 16\n", 16},
    {{START, 0x20010205, 0x1209D9C0}, 5, 0, 0, "X 12 17\n", 17},
    {{START, 0x20010205}, 4, 2, 0x30030D40, "X 12 16\n", 16},
    {{START, 0xB0000001}, 4, 0, 0, "X 12 17\n", 17},
    /* a start that is cut, whatever its first bits are, or has a wrong word */
    {{0}, 0, 1, 0xF0000000, "X 0 16\n", 16},
    {{0}, 0, 3, 0xC000000A, "X 0 16\n", 16},
    {{0xC000000A, 0xD0030958}, 2, 3, 0xFFFFFFFF, "X 0 16\n", 16},
    {{0xD0030958, 0xC000000A, 0xE0000001}, 3, 0, 0, "X 0 17\n", 17},
    {{0xC000000A, 0xE0000001, 0xD0030958}, 3, 0, 0, "X 0 17\n", 17},
    {{0xC000000A, 0x1209D9C0}, 2, 0, 0, "X 0 17\n", 17},
    /* words that cannot begin a record have their own place */
    {{START, 0x00000000}, 4, 0, 0, "X 12 17\n", 17},
    {{START, 0xF0000000}, 4, 0, 0, "X 12 17\n", 17},
    {{START, 0x10000000, 0x70000001}, 5, 0, 0, "X 16 17\n", 17},
    {{START, 0x20010101, 0x30000001}, 5, 0, 0, "X 16 17\n", 17},
    {{START, 0x10000000, 0xA000000A}, 5, 0, 0, "X 16 17\n", 17},
    {{START}, 3, 1, 0xF0000000, "X 12 16\n", 16},
    /* second and third words: the place is that of the record */
    {{START, 0x20010405, 0x30000001}, 5, 0, 0, "X 12 16\n", 16},
    {{START, 0x20010405, 0x30000001}, 5, 3, 0x40000001, "X 12 16\n", 16},
    {{START, 0x20010405, 0x30000001, 0x30000001}, 6, 0, 0, "X 12 17\n", 17},
    {{START, 0x20010405, 0x40000001, 0x30000001}, 6, 0, 0, "X 12 17\n", 17},
    {{START, 0x20010305, 0x30000001}, 5, 0, 0, "X 12 17\n", 17},
    {{START, 0x10000000, 0x60000001}, 5, 0, 0, "X 16 16\n", 16},
    {{START, 0x60000001, 0x60000001}, 5, 0, 0, "X 12 17\n", 17},
    {{START, 0x80030D40, 0xA000000A, 0x90030D40}, 6, 2, 0xA0000000, "X 20 16\n", 16},
    {{START, 0x80030D40, 0xB0000000}, 5, 0, 0, "X 12 17\n", 17},
    /* each end of the two gaps of an order's first word; the order would else be refused or lawful */
    {{START, 0x28010101}, 4, 0, 0, "X 12 17\n", 17},
    {{START, 0x20050101}, 4, 0, 0, "X 12 17\n", 17},
    {{START, 0x20018101}, 4, 0, 0, "X 12 17\n", 17},
    {{START, 0x20010901}, 4, 0, 0, "X 12 17\n", 17},
    {{START, 0x20050201}, 4, 0, 0, "X 12 17\n", 17}, /* the gap is the first faulty word, not the missing limit */
    {{START, 0xB8000000}, 4, 0, 0, "X 12 17\n", 17},
    /* no faults: the day refuses these. Side 0; kinds 0, 5, 6 and 7, which have no further words; shares 0, 255 */
    {{START, 0x20000101, 0x20010001, 0x20010501, 0x20010601, 0x20010701, 0x20010100, 0x200101FF}, 10, 0, 0,
     "R 2 4\nR 3 4\nR 4 4\nR 5 4\nR 6 4\nR 7 4\nR 8 4\nT 0 0\n", 0},
    {{START}, 3, 0, 0, "T 0 0\n", 0},
    /* what stands before a fault is played: order 1 lapses at the close of an unopened day, then two refusals */
    {{START, 0x20010109, 0xB0000000, 0x10000001, 0x50000001, 0xC000000A}, 8, 0, 0,
     "1 1 9 0 6\nR 4 1\nR 5 1\nX 28 17\n", 17},
    {{START, 0x50000001}, 4, 3, 0xB0000000, "R 2 9\nX 16 16\n", 16},
};

static void test_faults(void) {
    static struct file file;
    for (size_t i = 0; i < sizeof fault_cases / sizeof *fault_cases; i++) {
        const struct fault_case *one = &fault_cases[i];
        file.len = 0;
        for (size_t word = 0; word < one->count; word++) {
            put(&file, one->words[word]);
        }
        put(&file, one->cut);
        file.len -= 4 - one->more;
        check_lines("fault case", i, file.bytes, file.len, one->lines, one->fault);
        size_t full = strlen(one->lines);
        const char *last = one->lines + full - 1; /* the last line, without its line feed */
        while (last > one->lines && last[-1] != '\n') {
            last--;
        }
        check_play("fault case, one byte short", i, file.bytes, file.len, full - 1, 1, one->lines,
                   (size_t)(last - one->lines), 18);
    }
    group("faults");
}

/* ---- the length of the file */

static struct file *new_file(void) {
    struct file *file = (struct file *)(void *)memory(sizeof(struct file));
    file->len = 0;
    put(file, 0xC0000064); /* unit 100 */
    put(file, 0xD0030D40); /* prior close 200000 */
    put(file, 0xE0000001);
    return file;
}

static void test_lengths(void) {
    struct file *file = new_file();
    while (file->len < 65536) {
        put(file, 0x10000000); /* clock 0, which the clock has already */
    }
    check_lines("65536 bytes", 0, file->bytes, 65536, "T 0 0\n", 0);
    check_lines("65535 bytes", 0, file->bytes, 65535, "X 65532 16\n", 16);
    check_lines("65533 bytes", 0, file->bytes, 65533, "X 65532 16\n", 16);
    check_lines("65532 bytes", 0, file->bytes, 65532, "T 0 0\n", 0);
    file->bytes[65536] = 0x10;
    check_lines("65537 bytes", 0, file->bytes, 65537, "X 65536 15\n", 15);
    check_play("65537 bytes, no output", 0, file->bytes, 65537, 0, 0, "", 0, 18);
    check_play("65537 bytes, output short", 0, file->bytes, 65537, 10, 0, "", 0, 18);
    check_play("65537 bytes, output full", 0, file->bytes, 65537, 11, 0, "X 65536 15\n", 11, 15);
    memset(file->bytes, 0, sizeof file->bytes);
    check_lines("65537 zero bytes", 0, file->bytes, 65537, "X 65536 15\n", 15);
    free(file);
    uint8_t *long_file = memory(1000000);
    memset(long_file, 0x11, 1000000);
    check_lines("1000000 bytes", 0, long_file, 1000000, "X 65536 15\n", 15);
    free(long_file);
    group("file lengths");
}

/* 16,381 cancels of an order that is not there: as many records as fit. Lines `R k 9` from 2 to 16382 have 8 x 6 +
 * 90 x 7 + 900 x 8 + 9000 x 9 + 6383 x 10 = 152,708 bytes, and `T 0 0` has 6. */
static void test_most_refusals(void) {
    struct file *file = new_file();
    char *lines = (char *)memory(ODD_LOT_OUT_ENOUGH), *end = lines;
    for (unsigned k = 2; k <= 16382; k++) {
        put(file, 0x50000001);
        end += sprintf(end, "R %u 9\n", k);
    }
    strcpy(end, "T 0 0\n");
    check(file->len == 65536, "the file is full", file->len);
    check(strlen(lines) == 152714, "the lines have 152714 bytes", strlen(lines));
    check_lines("16381 refusals", 0, file->bytes, file->len, lines, 0);
    free(file);
    free(lines);
    group("as many records as fit");
}

/* The day with as many fills as fit, each line as long as may be. Opening at 200,000,000; then 31 times 512 market
 * buys of 99 shares and a trade of 100,000,000 that fills them, then 443 more and a trade: 12 + 8 + 31 x 2056 + 1780
 * = 65,536 bytes. Of 16,315 lines, 9 have 19 bytes, 90 20, 900 21, 9000 22 and 6316 23: 364,139. The specialist has
 * sold 16,315 x 99 = 1,615,185 shares for 323,037,000,000,000; that line has 27 bytes. */
static void test_most_fills(void) {
    struct file *file = new_file();
    char *lines = (char *)memory(ODD_LOT_OUT_ENOUGH), *end = lines;
    put(file, 0x8BEBC200); /* opening 200000000 */
    put(file, 0xA5F5E100); /* volume 100000000 */
    for (unsigned number = 1; number <= 16315; number++) {
        put(file, 0x20010163); /* buy, market, 99 shares */
        if (number % 512 == 0 || number == 16315) {
            put(file, 0x9BEBC200);
            put(file, 0xA5F5E100);
        }
        end += sprintf(end, "%u 1 99 200000000 2\n", number);
    }
    strcpy(end, "T -1615185 323037000000000\n");
    check(file->len == 65536, "the file is full", file->len);
    check(strlen(lines) == 364166, "the lines have 364166 bytes", strlen(lines));
    check_lines("16315 fills", 0, file->bytes, file->len, lines, 0);
    check_play("16315 fills", 1, file->bytes, file->len, 364166, 0, lines, 364166, 0);
    check_play("16315 fills", 2, file->bytes, file->len, 364165, 0, lines, 364139, 18);
    check_play("16315 fills", 3, file->bytes, file->len, ODD_LOT_OUT_ENOUGH, 3, lines, 364166, 0);
    free(file);
    free(lines);
    group("as many fills as fit");
}

/* 513 buys that no sale reaches: the book takes 512. A cancel makes room for one. */
static void test_full_book(void) {
    struct file *file = new_file();
    for (int i = 0; i < 513; i++) {
        put(file, 0x20010201); /* buy, limit, 1 share */
        put(file, 0x30000005); /* at 5 */
    }
    put(file, 0x50000007);
    put(file, 0x20010101); /* order 513: buy, market, 1 share */
    put(file, 0x80030D40); /* opening 200000 */
    put(file, 0xA0000064); /* volume 100 */
    check_lines("a full book", 0, file->bytes, file->len, "R 514 8\n513 1 1 200000 1\nT -1 200000\n", 0);
    free(file);
    group("a full book");
}

/* ---- a refused start: the day is closed, and every later record is refused with 1 */

static void test_refused_start(void) {
    static const uint32_t starts[][3] = {
        {0xC0000000, 0xD0030D40, 0xE0000001}, {0xC000000B, 0xD0030D40, 0xE0000001}, /* units 0, 11 */
        {0xCFFFFFFF, 0xD0030D40, 0xE0000001},                                       /* the greatest value */
        {0xC0000064, 0xD0000000, 0xE0000001}, {0xC0000064, 0xDBEBC201, 0xE0000001}, /* closes 0, 200000001 */
        {0xC0000064, 0xD0030D40, 0xE0000000},                                       /* tag 0 */
    };
    static struct file file;
    for (size_t i = 0; i < sizeof starts / sizeof *starts; i++) {
        file.len = 0;
        for (size_t word = 0; word < 3; word++) {
            put(&file, starts[i][word]);
        }
        check_lines("a refused start alone", i, file.bytes, file.len, "R 1 4\nT 0 0\n", 0);
        for (size_t word = 3; word < sizeof example_words / sizeof *example_words; word++) {
            put(&file, example_words[word]);
        }
        check_lines("a refused start", i, file.bytes, file.len,
                    "R 1 4\nR 2 1\nR 3 1\nR 4 1\nR 5 1\nR 6 1\nR 7 1\nR 8 1\nR 9 1\nR 10 1\nT 0 0\n", 0);
        check_lines("a refused start and a cut", i, file.bytes, 19, "R 1 4\nR 2 1\nX 16 16\n", 16);
    }
    group("refused starts");
}

/* ---- no memory for the book */

static void test_no_memory(void) {
    static struct file too_long;
    uint8_t out[100];
    memset(out, PATTERN, sizeof out);
    no_memory = 1;
    uint64_t played = odd_lot_play(example.bytes, example.len, out, sizeof out);
    uint64_t empty = odd_lot_play(example.bytes, 0, out, sizeof out);
    no_memory = 0;
    check(played == 31, "without memory the answer is 31", (size_t)played);
    check(empty == 31, "the empty file too needs the book", (size_t)empty);
    for (size_t i = 0; i < sizeof out; i++) {
        check(out[i] == PATTERN, "without memory nothing is written", i);
    }
    no_memory = 1;
    uint64_t fault = odd_lot_play(too_long.bytes, sizeof too_long.bytes, out, sizeof out);
    no_memory = 0;
    check(fault == 11 * 32 + 15, "a file that is too long needs no book", (size_t)fault);
    check(memcmp(out, "X 65536 15\n", 11) == 0 && out[11] == PATTERN, "its line is written", 0);
    check_lines("with memory again", 0, example.bytes, example.len, example_lines, 0);
    group("no memory");
}

/* ---- threads: two files at the same time, over and over */

static void *play_often(void *which) {
    uint8_t out[100];
    int odd = *(const int *)which % 2;
    size_t wrong = 0, file_len = odd ? 60 : 64; /* the example with and without its close, which has no line */
    for (int i = 0; i < 500; i++) {
        memset(out, PATTERN, sizeof out);
        size_t out_len = odd ? 50 : 100, written = odd ? 45 : 65;
        uint64_t answer = odd_lot_play(example.bytes, file_len, out, out_len);
        wrong += answer != written * 32 + (odd ? 18 : 0);
        wrong += memcmp(out, example_lines, written) != 0 || out[written] != PATTERN;
    }
    return wrong == 0 ? NULL : which;
}

static void test_threads(void) {
    enum { THREADS = 4 };
    pthread_t threads[THREADS];
    int which[THREADS];
    for (int i = 0; i < THREADS; i++) {
        which[i] = i;
        check(pthread_create(&threads[i], NULL, play_often, &which[i]) == 0, "a thread begins", (size_t)i);
    }
    for (int i = 0; i < THREADS; i++) {
        void *wrong = NULL;
        check(pthread_join(threads[i], &wrong) == 0 && wrong == NULL, "500 calls in a thread", (size_t)i);
    }
    group("threads");
}

int main(void) {
    make_example();
    test_example();
    test_every_length();
    test_unaligned();
    test_faults();
    test_lengths();
    test_most_refusals();
    test_most_fills();
    test_full_book();
    test_refused_start();
    test_no_memory();
    test_threads();
    if (failures > 0) {
        printf("host_test: %u of %u checks FAILED\n", failures, checks);
        return 1;
    }
    printf("host_test: %u checks passed\n", checks);
    return 0;
}
