/*
 * Calls the library with good and bad buffers and prints a line for each check. Ends with status 1 when one fails.
 *
 * Every call is made on a buffer that lies between guard bytes. All of it is filled beforehand; afterwards every byte that the
 * answer does not count must be as it was: the guards, the buffer past the appendix, and the whole buffer in a refusal.
 */
#include "jostagalley.h"

#include <inttypes.h>
#include <stdbool.h>
#include <stdio.h>
#include <stdlib.h>
#include <string.h>

enum { GUARD = 64, MOST_ROOM = 1024, FILL = 0xA5, TASKS = 64, SHEET_BYTES = 10 + 23 * TASKS };

/* Numbers of refusals, from docs/FORMATS.md and docs/PLANNING.md. */
enum { BAD_DIGITS = 1, UNENDED = 2, OUT_OF_PLACE = 4, NO_CONTROLLER = 10, PLACES = 15 };

#define ROWS                   \
    "020A01000A000A00020004\n" \
    "020B00000F000F00030000\n" \
    "020C010014000C00030005\n" \
    "020D00001E001E00040000\n" \
    "03\n"

static const char SAMPLE[] = "010204\n" ROWS;
static const char ONE_CONTROLLER[] = "010104\n" ROWS;
static const char LOW_DIGIT[] = "01020a\n" ROWS;
static const char NOT_ENDED[] = "010204\n020A01000A000A00020004";
static const char EMPTY[] = "";

static const char APPENDIX[] =
    "040204\n"
    "050A0000000000\n"
    "050B000002FFFF\n"
    "050C0100000000\n"
    "050D000005FFFF\n"
    "06\n";

enum { APPENDIX_LENGTH = sizeof APPENDIX - 1 };

static int checks, bad;

static void report(bool holds, const char *name) {
    checks++;
    if (!holds) bad++;
    if (printf("%s: %s\n", holds ? "ok" : "FAILED", name) < 0) exit(EXIT_FAILURE);
}

static bool filled(const uint8_t *from, const uint8_t *to) {
    while (from < to)
        if (*from++ != FILL) return false;
    return true;
}

/* A copy on the heap, of just the sheet's length, so that a sanitizer sees what is read past it. */
static uint8_t *copy_of(const char *sheet, size_t length) {
    uint8_t *copy = malloc(length > 0 ? length : 1);
    if (copy == NULL) {
        (void)fprintf(stderr, "check: out of memory\n");
        exit(EXIT_FAILURE);
    }
    memcpy(copy, sheet, length);
    return copy;
}

/*
 * Whether the sheet, in a buffer of so many bytes, gives the answer, leaves the sheet as it was, and writes what the answer
 * counts and nothing else. The appendix is compared where one is given.
 */
static bool gives(const char *sheet, size_t length, size_t room, int64_t answer, const char *appendix) {
    uint8_t bytes[GUARD + MOST_ROOM + GUARD];
    uint8_t *buffer = bytes + GUARD, *end = bytes + sizeof bytes;
    uint8_t *copy = copy_of(sheet, length);
    memset(bytes, FILL, sizeof bytes);
    int64_t got = jostagalley_appendix(copy, length, buffer, room);
    bool same = memcmp(copy, sheet, length) == 0;
    free(copy);
    if (got != answer) {
        (void)fprintf(stderr, "check: answer %" PRId64 " in place of %" PRId64 "\n", got, answer);
        return false;
    }
    size_t written = answer < 0 ? 0 : (size_t)answer;
    bool told = appendix == NULL || memcmp(buffer, appendix, written) == 0;
    return same && told && filled(bytes, buffer) && filled(buffer + written, end);
}

static bool text_gives(const char *sheet, size_t room, int64_t answer) {
    return gives(sheet, strlen(sheet), room, answer, answer < 0 ? NULL : APPENDIX);
}

static void check_room(void) {
    report(text_gives(SAMPLE, 0, -PLACES), "appendix length 0 is refused with 15, nothing written");
    report(text_gives(SAMPLE, APPENDIX_LENGTH - 1, -PLACES), "appendix length one too short is refused with 15, nothing written");
    report(text_gives(SAMPLE, APPENDIX_LENGTH, APPENDIX_LENGTH), "appendix length exact is filled");
    report(text_gives(SAMPLE, APPENDIX_LENGTH + 1, APPENDIX_LENGTH), "appendix length one longer keeps its last byte");
    report(text_gives(SAMPLE, MOST_ROOM, APPENDIX_LENGTH), "appendix length longer than any keeps what is past the appendix");
    bool all = true;
    for (size_t room = 0; room <= MOST_ROOM; room++)
        all = text_gives(SAMPLE, room, room < APPENDIX_LENGTH ? -PLACES : APPENDIX_LENGTH) && all;
    report(all, "every appendix length from 0 to 1024 gives 15 or the appendix");
}

static void check_refusals(void) {
    report(text_gives(ONE_CONTROLLER, MOST_ROOM, -NO_CONTROLLER), "one controller for the sample is refused with 10, nothing written");
    report(text_gives(ONE_CONTROLLER, 0, -NO_CONTROLLER), "so it is with appendix length 0");
    report(text_gives(EMPTY, MOST_ROOM, -OUT_OF_PLACE), "an empty sheet is refused with 4, nothing written");
    report(text_gives(EMPTY, 0, -OUT_OF_PLACE), "so it is with appendix length 0");
    report(text_gives(LOW_DIGIT, MOST_ROOM, -BAD_DIGITS), "a bad digit is refused with 1, nothing written");
    report(text_gives(NOT_ENDED, MOST_ROOM, -UNENDED), "a line that is not ended is refused with 2, nothing written");
}

/* A beginning of the sample that ends a line lacks the next frame; any other has a last line that is not ended. */
static void check_beginnings(void) {
    bool all = true;
    for (size_t length = 0; length < sizeof SAMPLE - 1; length++) {
        bool ended = length == 0 || SAMPLE[length - 1] == '\n';
        all = gives(SAMPLE, length, MOST_ROOM, ended ? -OUT_OF_PLACE : -UNENDED, NULL) && all;
    }
    report(all, "every beginning of the sample is refused with 2 or 4, nothing written");
}

/* 64 tasks of period 64 and budget 1, which one controller takes. */
static bool full_sheet(char *sheet, size_t room) {
    int written = snprintf(sheet, room, "0101%02X\n", (unsigned)TASKS);
    size_t length = 0;
    for (unsigned id = 0; written > 0; id++) {
        length += (size_t)written;
        if (length >= room) return false;
        if (id == TASKS + 1) return length == SHEET_BYTES;
        if (id == TASKS)
            written = snprintf(sheet + length, room - length, "03\n");
        else
            written = snprintf(sheet + length, room - length, "02%02X000040004000010000\n", id);
    }
    return false;
}

static void check_full(void) {
    char sheet[SHEET_BYTES + 1];
    bool made = full_sheet(sheet, sizeof sheet);
    enum { LONGEST = JOSTAGALLEY_APPENDIX_BYTES };
    report(made && gives(sheet, SHEET_BYTES, LONGEST, LONGEST, NULL), "64 tasks fill the longest appendix to its last byte");
    report(made && gives(sheet, SHEET_BYTES, LONGEST - 1, -PLACES, NULL), "one byte less is refused with 15, nothing written");
}

int main(void) {
    check_room();
    check_refusals();
    check_beginnings();
    check_full();
    if (printf("%d checks, %d failed\n", checks, bad) < 0 || fflush(stdout) != 0) return EXIT_FAILURE;
    return bad == 0 ? EXIT_SUCCESS : EXIT_FAILURE;
}
