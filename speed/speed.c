/* Times the planner on hard sheets, and the same search written plainly in C beside it. */
#include "../host/jostagalley.h"

#include <stdio.h>
#include <string.h>
#include <time.h>

enum { TASKS = 64, CONTROLLERS = 8, ROUNDS = 5 };

struct task { uint32_t id, level, period, deadline, budget[2]; };
struct row { struct task task; uint32_t controller, start[2]; };

static uint32_t gcd(uint32_t a, uint32_t b) { return b == 0 ? a : gcd(b, a % b); }

/* How far on a slot must start so as not to meet the other; -1 where it always meets it. */
static int64_t hop(uint32_t start, uint32_t budget, uint32_t other, uint32_t other_budget, uint32_t divisor) {
    if (divisor < budget + other_budget) return -1;
    uint32_t gap = (other + (divisor - start % divisor)) % divisor;
    if (gap < budget) return gap + other_budget;
    return gap + other_budget > divisor ? gap + other_budget - divisor : 0;
}

/* The least clear start by jumps, as the planner finds it; -1 where there is none. */
static int64_t least_start(const struct row *rows, const uint32_t *divisors, int count, const struct task *task, uint32_t controller, int mode) {
    uint32_t start = 0;
next:
    while (start + task->budget[mode] <= task->deadline) {
        for (int i = 0; i < count; i++) {
            if (rows[i].controller != controller || rows[i].task.level < (uint32_t)mode) continue;
            int64_t n = hop(start, task->budget[mode], rows[i].start[mode], rows[i].task.budget[mode], divisors[i]);
            if (n < 0) return -1;
            if (n > 0) { start += n; goto next; }
        }
        return start;
    }
    return -1;
}

/* Plans the tasks; the row that no controller takes, or the number of tasks. */
static int plan(const struct task *tasks, int count, uint32_t m, struct row *rows) {
    for (int i = 0; i < count; i++) {
        uint32_t divisors[TASKS], c;
        for (int j = 0; j < i; j++) divisors[j] = gcd(tasks[i].period, rows[j].task.period);
        for (c = 0; c < m; c++) {
            int64_t everyday = least_start(rows, divisors, i, &tasks[i], c, 0);
            int64_t critical = everyday < 0 || tasks[i].level == 0 ? 65535 : least_start(rows, divisors, i, &tasks[i], c, 1);
            if (everyday < 0 || critical < 0) continue;
            rows[i] = (struct row){tasks[i], c, {(uint32_t)everyday, (uint32_t)critical}};
            break;
        }
        if (c == m) return i;
    }
    return count;
}

static double seconds(void) {
    struct timespec t;
    clock_gettime(CLOCK_MONOTONIC, &t);
    return t.tv_sec + t.tv_nsec / 1e9;
}

/* Periods are a unit times distinct primes, so that every two share just the unit; budgets fill a controller with eight
 * tasks. The first task takes more, so that the last finds no place after every start on every controller was tried. */
static void hard(struct task *tasks, uint32_t unit, uint32_t budget, uint32_t more) {
    uint32_t n = 0, p = 60000 / unit;
    for (; n < TASKS; p--) {
        uint32_t d = 2;
        while (d * d <= p && p % d) d++;
        if (p > 1 && d * d > p) {
            tasks[TASKS - 1 - n] = (struct task){TASKS - 1 - n, 1, unit * p, unit * p, {budget, budget}};
            n++;
        }
    }
    tasks[0].budget[0] = tasks[0].budget[1] = more;
}

static size_t sheet_of(const struct task *tasks, uint32_t m, char *sheet) {
    char *s = sheet + sprintf(sheet, "01%02X%02X\n", m, TASKS);
    for (int i = 0; i < TASKS; i++)
        s += sprintf(s, "02%02X%02X%04X%04X%04X%04X\n", tasks[i].id, tasks[i].level, tasks[i].period, tasks[i].deadline, tasks[i].budget[0], tasks[i].budget[1]);
    s += sprintf(s, "03\n");
    return s - sheet;
}

static int compare(const char *name, uint32_t unit, uint32_t budget, uint32_t more) {
    struct task tasks[TASKS];
    struct row rows[TASKS];
    char sheet[4096];
    uint8_t appendix[1024];
    hard(tasks, unit, budget, more);
    size_t length = sheet_of(tasks, CONTROLLERS, sheet);
    double ours = 1e9, theirs = 1e9;
    int64_t answer = 0;
    int placed = 0;
    for (int r = 0; r < ROUNDS; r++) {
        double t = seconds();
        answer = jostagalley_appendix((const uint8_t *)sheet, length, appendix, sizeof appendix);
        double u = seconds();
        placed = plan(tasks, TASKS, CONTROLLERS, rows);
        double v = seconds();
        if (u - t < ours) ours = u - t;
        if (v - u < theirs) theirs = v - u;
    }
    printf("%s: answer %lld, %d of %d placed in C; %.4f s, in C %.4f s, ratio %.2f\n", name, (long long)answer, placed, TASKS, ours, theirs, ours / theirs);
    return (answer == -10) == (placed < TASKS) ? 0 : 1;
}

int main(void) {
    int bad = 0;
    bad |= compare("all placed, unit 60", 60, 7, 7);
    bad |= compare("refused at the last row, unit 60", 60, 7, 12);
    bad |= compare("refused at the last row, unit 16", 16, 2, 3);
    bad |= compare("refused at the last row, unit 8", 8, 1, 2);
    return bad;
}
