/* Question 9's search reads no entry after the first that is out of range. What lies after that entry cannot be read here, and a call that
 * read it would be stopped. The header forbids such a table to callers; this program uses one, to show what the compiled search reads.
 * (Memory is shut off by the page, so a search that loads blocks which never cross one is not seen here. The benchmark counts loads.)
 *
 * One line for each call and each place of the entry: what is answered where the entry is out of range; and where it is in range, so that
 * the search has to go on. x stands for a call that is stopped at the next entry. */
#define _DEFAULT_SOURCE
#include "mattuliyan.h"

#include <signal.h>
#include <stdint.h>
#include <stdio.h>
#include <stdlib.h>
#include <sys/mman.h>
#include <sys/wait.h>
#include <unistd.h>

enum { SIDE = 64, LEVEL = 6, ENTRIES = SIDE * SIDE };

enum { SHEET = 128, SIDE_ON_SHEET = 32, ENTRIES_ON_SHEET = SIDE_ON_SHEET * SIDE_ON_SHEET };

enum { STOPPED = 100, STOPPED_ELSEWHERE }; /* exit statuses: no question has these numbers */

static const int64_t most = INT64_C(1) << 40; /* that question 9 lets pass */

static int64_t *end; /* of what can be read */

static uint32_t figures(int64_t *table) {
    static int64_t picture[ENTRIES];
    return mattuliyan_figures(SIDE, LEVEL, table, ENTRIES, picture, ENTRIES);
}

static uint32_t greys(int64_t *table) {
    static uint8_t picture[ENTRIES];
    return mattuliyan_greys(SIDE, LEVEL, table, ENTRIES, picture, ENTRIES);
}

static uint32_t pyramid(int64_t *table) {
    static uint8_t pictures[(4 * ENTRIES - 1) / 3];
    return mattuliyan_pyramid(SIDE, table, ENTRIES, pictures, sizeof pictures);
}

static uint32_t cell(int64_t *table) {
    int64_t figure;
    return mattuliyan_cell(SIDE, LEVEL, 5, 9, table, ENTRIES, &figure);
}

/* Three times the same point: a contour without values, which leaves every entry in range. */
static const int64_t points[] = {5, 9, 5, 9, 5, 9};
static const double placement[] = {1};

static uint32_t put(int64_t *table) {
    uint32_t edges = 3;
    return mattuliyan_put(SIDE, points, 6, 3, placement, 1, &edges, table, ENTRIES);
}

static uint32_t take(int64_t *table) {
    uint32_t edges = 3;
    return mattuliyan_take(SIDE, points, 6, 3, placement, 1, &edges, table, ENTRIES);
}

static uint32_t put_on_sheet(int64_t *table) {
    uint32_t edges = 3;
    return mattuliyan_put_on_sheet(SHEET, SIDE_ON_SHEET, 2, 1, points, 6, 3, placement, 1, &edges, table, ENTRIES_ON_SHEET);
}

static uint32_t take_on_sheet(int64_t *table) {
    uint32_t edges = 3;
    return mattuliyan_take_on_sheet(SHEET, SIDE_ON_SHEET, 2, 1, points, 6, 3, placement, 1, &edges, table, ENTRIES_ON_SHEET);
}

/* The same point three times, the first edge being a curve whose control point it is too. */
static const int64_t curve[] = {5, 9, 5, 9, 5, 9, 5, 9};
static const uint8_t marks[] = {1, 0, 0};

static uint32_t put_curves(int64_t *table) {
    uint32_t edges = 3;
    return mattuliyan_put_curves(SIDE, curve, 8, 3, marks, 3, placement, 1, &edges, table, ENTRIES);
}

static uint32_t take_curves(int64_t *table) {
    uint32_t edges = 3;
    return mattuliyan_take_curves(SIDE, curve, 8, 3, marks, 3, placement, 1, &edges, table, ENTRIES);
}

static uint32_t put_curves_on_sheet(int64_t *table) {
    uint32_t edges = 3;
    return mattuliyan_put_curves_on_sheet(SHEET, SIDE_ON_SHEET, 2, 1, curve, 8, 3, marks, 3, placement, 1, &edges, table,
                                          ENTRIES_ON_SHEET);
}

static uint32_t take_curves_on_sheet(int64_t *table) {
    uint32_t edges = 3;
    return mattuliyan_take_curves_on_sheet(SHEET, SIDE_ON_SHEET, 2, 1, curve, 8, 3, marks, 3, placement, 1, &edges, table,
                                           ENTRIES_ON_SHEET);
}

static void fail(const char *what) {
    perror(what);
    exit(1);
}

static void stop(int signal, siginfo_t *information, void *context) {
    (void)signal, (void)context;
    _exit(information->si_addr == end ? STOPPED : STOPPED_ELSEWHERE);
}

/* Makes a call in a process of its own, and prints its answer. */
static void answer(uint32_t (*call)(int64_t *), int64_t *table) {
    int status;
    pid_t child = fork();
    if (child < 0) fail("fork");
    if (child == 0) _exit((int)call(table));
    if (waitpid(child, &status, 0) < 0) fail("waitpid");
    if (WIFEXITED(status) && WEXITSTATUS(status) < STOPPED) printf(" %d", WEXITSTATUS(status));
    else printf(WIFEXITED(status) && WEXITSTATUS(status) == STOPPED ? " x" : " ?");
}

int main(void) {
    static const struct {
        const char *name;
        uint32_t (*call)(int64_t *);
        size_t entries;
    } calls[] = {
        {"figures", figures, ENTRIES},
        {"greys", greys, ENTRIES},
        {"pyramid", pyramid, ENTRIES},
        {"cell", cell, ENTRIES},
        {"put", put, ENTRIES},
        {"take", take, ENTRIES},
        {"put on a sheet", put_on_sheet, ENTRIES_ON_SHEET},
        {"take on a sheet", take_on_sheet, ENTRIES_ON_SHEET},
        {"put curves", put_curves, ENTRIES},
        {"take curves", take_curves, ENTRIES},
        {"put curves on a sheet", put_curves_on_sheet, ENTRIES_ON_SHEET},
        {"take curves on a sheet", take_curves_on_sheet, ENTRIES_ON_SHEET},
    };
    static const size_t first[] = {0, 1, 2, 3, 4, 7, 8, 15, 16, 63, 64, 511, 512, 1000}; /* and the last two of each table */
    const size_t places = sizeof first / sizeof *first + 2;
    const struct sigaction action = {.sa_sigaction = stop, .sa_flags = SA_SIGINFO};
    const size_t page = (size_t)sysconf(_SC_PAGESIZE);
    const size_t bytes = (ENTRIES * sizeof(int64_t) + page - 1) / page * page;
    char *memory = mmap(NULL, 2 * bytes, PROT_READ | PROT_WRITE, MAP_PRIVATE | MAP_ANONYMOUS, -1, 0);

    if (memory == MAP_FAILED) fail("mmap");
    end = (int64_t *)(memory + bytes);
    if (mprotect(end, bytes, PROT_NONE) != 0) fail("mprotect");
    if (sigaction(SIGSEGV, &action, NULL) != 0 || sigaction(SIGBUS, &action, NULL) != 0) fail("sigaction");
    for (size_t c = 0; c < sizeof calls / sizeof *calls; c++) {
        for (size_t p = 0; p < places; p++) {
            size_t place = p + 2 < places ? first[p] : calls[c].entries + p - places;
            int64_t *table = end - (place + 1); /* so that the place is the last that can be read */
            for (int64_t *entry = table; entry < end; entry++) *entry = (entry - table) % 2 ? most : -most;
            printf("%s %zu of %zu:", calls[c].name, place, calls[c].entries);
            end[-1] = p % 2 ? most + 1 : -most - 1;
            answer(calls[c].call, table);
            end[-1] = p % 2 ? most : -most;
            answer(calls[c].call, table);
            printf("\n");
        }
    }
    return 0;
}
