/*
 * What crates/ticking does, written plainly in C: `ticks SHEET [WAY TICKS]..` plans the sheet and runs the plan by the rules of
 * docs/CONTROL.md, and prints the same lines. The plan comes from the library; only the ticks are written here.
 */
#include "../host/jostagalley.h"

#include <inttypes.h>
#include <stdbool.h>
#include <stdio.h>
#include <stdlib.h>
#include <string.h>

enum { TASKS = 64, CONTROLLERS = 8, EVENTS = 2 * CONTROLLERS + 1, SHEET_BYTES = 4096, NONE = 255 };
enum mode { EVERYDAY, CRITICAL };
enum kind { SWITCH, CUT, START };
enum { PLACES = 15, OVER = 16, BUSY = 17 };

static const uint64_t END_OF_TIME = UINT64_C(1) << 40;

struct event { uint8_t kind, controller, row; };
struct row { uint8_t id, level, controller; uint16_t period, deadline, budget[2], start[2]; };
struct counts { uint64_t starts, reports, cuts; };

/* A control over a slate: the row that each controller is busy with, or NONE, is kept in `held`. */
struct control {
    uint8_t controllers, count;
    struct row rows[TASKS];
    enum mode mode;
    uint64_t opening, next;
    uint8_t held[CONTROLLERS];
    uint64_t since[CONTROLLERS];
    struct counts counts[TASKS];
};

struct sums { uint64_t events, switches, cuts, starts; };

/* Whether the controller's job has had its budget. */
static bool spent(const struct control *k, uint8_t c) {
    uint8_t row = k->held[c];
    return row != NONE && k->next - k->since[c] >= k->rows[row].budget[k->mode];
}

static bool some_spent(const struct control *k) {
    for (uint8_t c = 0; c < k->controllers; c++)
        if (spent(k, c)) return true;
    return false;
}

/* The row that is due on the controller after so many instants of the mode, or NONE. */
static uint8_t due(const struct control *k, uint8_t c, enum mode mode, uint64_t elapsed) {
    for (uint8_t i = 0; i < k->count; i++) {
        const struct row *row = &k->rows[i];
        if (row->controller == c && row->level >= mode && elapsed % row->period == row->start[mode]) return i;
    }
    return NONE;
}

static void cut(struct control *k, uint8_t c) {
    k->counts[k->held[c]].cuts++;
    k->held[c] = NONE;
}

static void start(struct control *k, uint8_t c, uint8_t row) {
    k->held[c] = row;
    k->since[c] = k->next;
    k->counts[row].starts++;
}

/* Handles the next instant; the number of events written, or the number of the refusal below 0. */
static int tick(struct control *k, struct event *events, int places) {
    uint8_t cuts[CONTROLLERS], starts[CONTROLLERS];
    int n = 0;
    if (k->next >= END_OF_TIME) return -OVER;
    if (places < 2 * k->controllers + 1) return -PLACES;
    bool switches = k->mode == EVERYDAY && some_spent(k);
    enum mode mode = switches ? CRITICAL : k->mode;
    uint64_t elapsed = switches ? 0 : k->next - k->opening;
    for (uint8_t c = 0; c < k->controllers; c++) {
        cuts[c] = switches || spent(k, c) ? k->held[c] : NONE;
        starts[c] = due(k, c, mode, elapsed);
        if (starts[c] != NONE && cuts[c] == NONE && k->held[c] != NONE) return -BUSY;
    }
    if (switches) {
        k->mode = CRITICAL;
        k->opening = k->next;
        events[n++] = (struct event){SWITCH, 0, 0};
    }
    for (uint8_t c = 0; c < k->controllers; c++) {
        if (cuts[c] == NONE) continue;
        cut(k, c);
        events[n++] = (struct event){CUT, c, cuts[c]};
    }
    for (uint8_t c = 0; c < k->controllers; c++) {
        if (starts[c] == NONE) continue;
        start(k, c, starts[c]);
        events[n++] = (struct event){START, c, starts[c]};
    }
    k->next++;
    return n;
}

static void report_all(struct control *k) {
    for (uint8_t c = 0; c < k->controllers; c++) {
        if (k->held[c] == NONE) continue;
        k->counts[k->held[c]].reports++;
        k->held[c] = NONE;
    }
}

static void add(struct sums *sums, const struct event *events, int n) {
    for (int i = 0; i < n; i++) {
        sums->events++;
        switch (events[i].kind) {
        case SWITCH: sums->switches++; break;
        case CUT: sums->cuts++; break;
        default: sums->starts++; break;
        }
    }
}

static int run(struct control *k, bool reported, uint64_t ticks, struct sums *sums) {
    struct event events[EVENTS];
    for (uint64_t i = 0; i < ticks; i++) {
        int n = tick(k, events, EVENTS);
        if (n < 0) return n;
        add(sums, events, n);
        if (reported) report_all(k);
    }
    return 0;
}

static int show(const struct control *loaded, const char *way, uint64_t ticks) {
    struct control k = *loaded;
    struct sums sums = {0, 0, 0, 0};
    struct counts all = {0, 0, 0};
    if (run(&k, strcmp(way, "reported") == 0, ticks, &sums) < 0) return 1;
    for (uint8_t i = 0; i < k.count; i++) {
        all.starts += k.counts[i].starts;
        all.reports += k.counts[i].reports;
        all.cuts += k.counts[i].cuts;
    }
    printf("%s, %" PRIu64 " ticks: events %" PRIu64 " switches %" PRIu64 " cuts %" PRIu64 " starts %" PRIu64, way, ticks, sums.events, sums.switches, sums.cuts, sums.starts);
    printf("; rows started %" PRIu64 " reported %" PRIu64 " cut %" PRIu64 "\n", all.starts, all.reports, all.cuts);
    return 0;
}

/* The row of a line of the sheet and of its line of the appendix. */
static bool read_row(const char *task, const char *placed, struct row *row) {
    return sscanf(task, "02%2" SCNx8 "%2" SCNx8 "%4" SCNx16 "%4" SCNx16 "%4" SCNx16 "%4" SCNx16, &row->id, &row->level, &row->period, &row->deadline, &row->budget[0], &row->budget[1]) == 6
        && sscanf(placed, "05%*2x%2" SCNx8 "%4" SCNx16 "%4" SCNx16, &row->controller, &row->start[0], &row->start[1]) == 3;
}

/* A control with the plan of the sheet, in the everyday mode at instant 0. */
static bool load(const char *sheet, size_t length, struct control *k) {
    char appendix[JOSTAGALLEY_APPENDIX_BYTES];
    memset(k, 0, sizeof *k);
    memset(k->held, NONE, sizeof k->held);
    if (jostagalley_appendix((const uint8_t *)sheet, length, (uint8_t *)appendix, sizeof appendix) < 0) return false;
    if (sscanf(appendix, "04%2" SCNx8 "%2" SCNx8, &k->controllers, &k->count) != 2) return false;
    for (uint8_t i = 0; i < k->count; i++)
        if (!read_row(sheet + 7 + 23 * i, appendix + 7 + 15 * i, &k->rows[i])) return false;
    return true;
}

int main(int count, char **words) {
    char sheet[SHEET_BYTES];
    struct control k;
    int bad = 0;
    FILE *file = count > 1 ? fopen(words[1], "rb") : NULL;
    if (file == NULL) return 2;
    size_t length = fread(sheet, 1, sizeof sheet - 1, file);
    sheet[length] = 0;
    if (ferror(file) || fclose(file) != 0) return 2;
    if (!load(sheet, length, &k)) return 1;
    for (int i = 2; i + 1 < count; i += 2) bad |= show(&k, words[i], strtoull(words[i + 1], NULL, 10));
    return bad || fflush(stdout) != 0;
}
