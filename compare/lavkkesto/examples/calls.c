/* Every call of the library on Plan S, whose file is named as the argument. */
#include <inttypes.h>
#include <stdio.h>
#include <string.h>

#include "lavkkesto.h"

static uint8_t plan[65536];
static size_t cells[LAVKKESTO_CELLS], lens[LAVKKESTO_MACHINES];

/* Room for the rows of a sheet, as most calls take it. */
static size_t activities[LAVKKESTO_PLACES], machines[LAVKKESTO_PLACES], tasks[LAVKKESTO_PLACES];
static uint64_t starts[LAVKKESTO_PLACES], ends[LAVKKESTO_PLACES], setups[LAVKKESTO_PLACES];
/* Room for a step of the search. */
static size_t path[LAVKKESTO_PLACES], moves[LAVKKESTO_MOVE_CELLS], kept[LAVKKESTO_PLACES];
static uint64_t ranks[LAVKKESTO_PLACES];
#define PLACES LAVKKESTO_PLACES
#define ROWS activities, PLACES, machines, PLACES, starts, PLACES, ends, PLACES, setups, PLACES

static double fitness(uint64_t bits) {
    double number;
    memcpy(&number, &bits, sizeof number);
    return number;
}

static void show(const char *call, const uint64_t code[4]) {
    if (code[0] != 0) {
        printf("%s: refused %" PRIu64 " %" PRIu64 "\n", call, code[0], code[1]);
        return;
    }
    printf("%s: %" PRIu64 " rows, fitness %g\n", call, code[2], fitness(code[3]));
    for (size_t k = 0; k < code[2]; k++)
        printf("%zu %zu %" PRIu64 " %" PRIu64 " %" PRIu64 "\n", activities[k], machines[k], starts[k], ends[k], setups[k]);
}

static void show_step(const uint64_t code[7]) {
    if (code[0] != 0) {
        printf("look: refused %" PRIu64 " %" PRIu64 "\n", code[0], code[1]);
        return;
    }
    printf("look: %" PRIu64 " on the path, %" PRIu64 " block moves, fitness %g\n", code[2], code[3], fitness(code[6]));
    printf("path");
    for (size_t k = 0; k < code[2]; k++) printf(" %zu", path[k]);
    for (size_t k = 0; k < code[4] + code[5]; k++) {
        printf("\nkept");
        for (size_t number = 0; number < 6; number++) printf(" %zu", kept[6 * k + number]);
        printf(" rank %" PRIu64 " %" PRIu64, ranks[2 * k], ranks[2 * k + 1]);
    }
    printf("\n");
}

static void show_check(const uint64_t code[3]) {
    if (code[0] != 0)
        printf("check: refused %" PRIu64 " %" PRIu64 "\n", code[0], code[2]);
    else if (code[1] == 0)
        printf("check: accepted\n");
    else if (code[1] == 10)
        printf("check: activity %" PRIu64 " has no row\n", code[2]);
    else
        printf("check: rule %" PRIu64 ", row %" PRIu64 "\n", code[1], code[2]);
}

int main(int count, char **words) {
    uint64_t code[4], told[3], seen[7];
    FILE *file = count > 1 ? fopen(words[1], "rb") : NULL;
    if (file == NULL) return 2;
    size_t length = fread(plan, 1, sizeof plan, file);
    fclose(file);

    /* Lines of our own: activities 2 and 0 on machine 0, 3 and 1 on machine 1. */
    cells[0] = 2, cells[1] = 0, lens[0] = 2;
    cells[128] = 3, cells[129] = 1, lens[1] = 2;
    lavkkesto_time(plan, length, cells, LAVKKESTO_CELLS, lens, ROWS, code);
    show("time", code);
    printf("time_again: %" PRIu64 "\n", lavkkesto_time_again(plan, length, cells, LAVKKESTO_CELLS, lens, 3));
    lavkkesto_look(plan, length, cells, LAVKKESTO_CELLS, lens, path, PLACES, moves, LAVKKESTO_MOVE_CELLS, kept, PLACES, ranks,
                   PLACES, seen);
    show_step(seen);

    lavkkesto_time_order(plan, length, ROWS, code);
    show("time_order", code);
    lavkkesto_in_order(plan, length, ROWS, code);
    show("in_order", code);
    lavkkesto_active(plan, length, ROWS, code);
    show("active", code);
    lavkkesto_decode(plan, length, ROWS, code);
    show("decode", code);

    int64_t rows[] = {0, 0, 0, 3, 1, 1, 3, 7, 2, 0, 3, 4, 3, 1, 7, 12};
    lavkkesto_check(plan, length, rows, 16, told);
    show_check(told);
    rows[6] = 2;
    lavkkesto_check(plan, length, rows, 16, told);
    show_check(told);
    lavkkesto_check(plan, length, rows, 4, told);
    show_check(told);

    lavkkesto_improve(plan, length, cells, LAVKKESTO_CELLS, tasks, PLACES, machines, PLACES, told);
    if (told[0] < 10) {
        printf("improve: refused %" PRIu64 " %" PRIu64 "\n", told[0], told[1]);
    } else if (told[0] < 13) {
        printf("improve: outcome %" PRIu64 "\n", told[0]);
    } else {
        printf("improve: outcome %" PRIu64 ", line fitness %g\n", told[0], fitness(told[2]));
        printf("tasks [%zu, %zu, %zu, %zu], ", tasks[0], tasks[1], tasks[2], tasks[3]);
        printf("machines [%zu, %zu, %zu, %zu]\n", machines[0], machines[1], machines[2], machines[3]);
    }

    /* A plan that ends too early, and a buffer that is too short. */
    lavkkesto_decode(plan, length - 1, ROWS, code);
    show("decode", code);
    lavkkesto_decode(plan, length, activities, PLACES, machines, PLACES, starts, PLACES, ends, PLACES, setups, 0, code);
    show("decode", code);
    return 0;
}
