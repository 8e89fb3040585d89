/* The analysis as one call over bytes in memory, of the library that tools/build-c-library.sh makes. */
#ifndef BOLGWYR_H
#define BOLGWYR_H

#include <stddef.h>
#include <stdint.h>

#ifdef __cplusplus
extern "C" {
#endif

/* What a status means. The report program has two more, for ends that fail, which never come here. */
enum bolgwyr_status {
    BOLGWYR_CLEAN = 0,     /* the report is written, and there are no diagnostics */
    BOLGWYR_DIAGNOSED = 1, /* the report is written, and there are diagnostics */
    BOLGWYR_USAGE = 2,     /* a word isn't known, or a number is missing or not well written */
    BOLGWYR_TREE = 3,      /* the bytes are no program's tree */
    BOLGWYR_TOO_LONG = 4,  /* there are more than 67,108,864 bytes */
    BOLGWYR_MEMORY = 7     /* memory is wanting */
};

/* A line on errors has at most so many bytes. */
#define BOLGWYR_MESSAGE_SIZE 128

struct bolgwyr_answer {
    uint32_t status;
    size_t report_len;  /* the bytes of the whole report, also where they don't fit */
    size_t message_len; /* the bytes of the whole line on errors, also where they don't fit */
};

/*
 * Analyses the program of a tree, whose JSON text is the `tree_len` bytes at `tree`. The `words_len` bytes at `words` are
 * the words of the report program, as UTF-8, one a line, and may be none.
 *
 * `report` gets the report, and `message` the line on errors: as many bytes from its front as fit, without a zero behind
 * them. Where `report_len` is above `report_size`, call again with a larger buffer; a report is seldom longer than its tree.
 *
 * No pointer may be NULL, also where there are no bytes, and the two buffers overlap nothing. The call keeps nothing and
 * gives all its memory back, which it takes by `malloc`, `realloc` and `free`; it needs the stack of a main thread, 8 MiB.
 */
struct bolgwyr_answer bolgwyr_report(const uint8_t *tree, size_t tree_len, const uint8_t *words, size_t words_len,
                                     uint8_t *report, size_t report_size, uint8_t *message, size_t message_size);

#ifdef __cplusplus
}
#endif

#endif
