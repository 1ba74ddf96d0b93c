/*
 * A host program: `host [SHEET]` plans the task sheet in the file, or on standard input, and writes its appendix to standard
 * output. It ends with status 0 after an appendix, 1 after a refusal, and 2 where a sheet cannot be read or an appendix not
 * be written.
 */
#include "jostagalley.h"

#include <errno.h>
#include <inttypes.h>
#include <stdbool.h>
#include <stdio.h>
#include <string.h>

/* How the program ends. */
enum { PLANNED = 0, REFUSED = 1, FAILED = 2 };

/* More than any sheet that keeps the rules has. What comes after is not read: the sheet is refused in any case. */
enum { MOST_BYTES = 4096 };

/* Tells a problem that is not the sheet's. Where even that cannot be told, the status tells it. */
static int failed(const char *what, const char *why) {
    (void)fprintf(stderr, "host: %s: %s\n", what, why);
    return FAILED;
}

static int refused(int64_t number) {
    if (fprintf(stderr, "host: the sheet is refused, number %" PRId64 "\n", number) < 0) return FAILED;
    return REFUSED;
}

/* Reads as many bytes as there are, at most MOST_BYTES; false where the file fails, and errno says why. */
static bool read_sheet(FILE *file, uint8_t *sheet, size_t *length) {
    errno = 0;
    *length = fread(sheet, 1, MOST_BYTES, file);
    return !ferror(file);
}

/* The same of a file by its name. It is closed on every way out. */
static bool read_named(const char *name, uint8_t *sheet, size_t *length) {
    FILE *file = fopen(name, "rb");
    if (file == NULL) return false;
    bool whole = read_sheet(file, sheet, length);
    int why = errno;
    if (fclose(file) != 0 && whole) return false;
    errno = why;
    return whole;
}

static int write_appendix(const uint8_t *appendix, size_t length) {
    errno = 0;
    if (fwrite(appendix, 1, length, stdout) != length || fflush(stdout) != 0) return failed("standard output", strerror(errno));
    return PLANNED;
}

/* A negative answer is a refusal, and the buffer is then as it was; any other is the length of the appendix. */
static int plan(const uint8_t *sheet, size_t length) {
    uint8_t appendix[JOSTAGALLEY_APPENDIX_BYTES];
    int64_t answer = jostagalley_appendix(sheet, length, appendix, sizeof appendix);
    if (answer < 0) return refused(-answer);
    return write_appendix(appendix, (size_t)answer);
}

int main(int count, char **words) {
    uint8_t sheet[MOST_BYTES];
    size_t length = 0;
    if (count > 2) return failed("usage", "host [SHEET]");
    if (count == 2) {
        if (!read_named(words[1], sheet, &length)) return failed(words[1], strerror(errno));
    } else if (!read_sheet(stdin, sheet, &length)) {
        return failed("standard input", strerror(errno));
    }
    return plan(sheet, length);
}
