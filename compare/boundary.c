/* The library at its boundary with C, which no proof covers; made to be run under valgrind's memcheck, which sees every byte that is read
   or written outside of a buffer. The arguments are files of stored answers (compare/README.md), none of which the library made. Each case
   goes through every call with buffers of exactly the size needed, from the heap and full of garbage, and with each buffer one cell short:
   6, and nothing written. Plan S is also cut at every length and lengthened, and its sheet of document 01 is checked. */
#define _POSIX_C_SOURCE 200809L
#include <inttypes.h>
#include <stdarg.h>
#include <stdio.h>
#include <stdlib.h>
#include <string.h>

#include "lavkkesto.h"

enum { ROWS = 5, VIEWS = 4, TOLD = 10 };
_Static_assert(sizeof(size_t) == sizeof(uint64_t), "a number is a cell of eight bytes");

static uint64_t calls, errors;
static const char *told_case = "";

/* -------------------------------------------------------------------------------------------------------------------- what is told */

static void error(const char *call, const char *what, const char *due, const char *found) {
    if (errors++ < TOLD) printf("%s: %s: %s; due:\n%sfound:\n%s", told_case, call, what, due, found);
}

static void stop(const char *why) {
    fprintf(stderr, "boundary: %s\n", why);
    exit(2);
}

/* A text that grows. */
struct text {
    size_t length;
    char bytes[1 << 15];
};

static void put(struct text *to, const char *form, ...) {
    va_list values;
    va_start(values, form);
    size_t room = sizeof to->bytes - to->length;
    int added = vsnprintf(to->bytes + to->length, room, form, values);
    va_end(values);
    if (added < 0 || (size_t)added >= room) stop("a text is too long");
    to->length += (size_t)added;
}

/* --------------------------------------------------------------------------------------------------------------------- the buffers */

static void *room(size_t bytes) {
    void *place = malloc(bytes);
    if (place == NULL) stop("no memory");
    return place;
}

static void *copied(const void *from, size_t bytes) {
    void *to = room(bytes);
    if (bytes > 0) memcpy(to, from, bytes);
    return to;
}

/* So many cells and not a byte more, full of anything. */
static uint64_t *garbage(size_t cells) {
    static uint64_t state = 0x9e3779b97f4a7c15;
    uint64_t *place = room(cells * sizeof *place);
    for (size_t k = 0; k < cells; k++) {
        state ^= state << 13, state ^= state >> 7, state ^= state << 17;
        place[k] = state;
    }
    return place;
}

static void held_as_before(const char *call, const uint64_t *now, const uint64_t *before, size_t from, size_t to) {
    for (size_t k = from; k < to; k++)
        if (now[k] != before[k]) {
            error(call, "a place was written that must stay", "", "");
            return;
        }
}

/* ------------------------------------------------------------------------------------------------------- timing and the decoders */

struct input {
    const uint8_t *plan;
    size_t length;
    /* Lines, where there are any. */
    const size_t *cells, *lens;
    size_t cells_length;
};

typedef void sheet_call(const uint8_t *, size_t, size_t *, size_t, size_t *, size_t, uint64_t *, size_t, uint64_t *, size_t,
                        uint64_t *, size_t, uint64_t *);

/* The call, or the timing of the given lines where there is none. */
static void write_sheet(sheet_call *call, const struct input *in, uint64_t *lent[ROWS], const size_t n[ROWS], uint64_t *code) {
    calls++;
    if (call != NULL)
        call(in->plan, in->length, lent[0], n[0], lent[1], n[1], lent[2], n[2], lent[3], n[3], lent[4], n[4], code);
    else
        lavkkesto_time(in->plan, in->length, in->cells, in->cells_length, in->lens, lent[0], n[0], lent[1], n[1], lent[2], n[2],
                       lent[3], n[3], lent[4], n[4], code);
}

/* Into buffers of so many places: the answer as text, and every place after the rows. */
static void hold_sheet(const char *name, sheet_call *call, const struct input *in, const size_t places[ROWS], const char *due) {
    uint64_t *lent[ROWS], *before[ROWS], *code = garbage(4);
    for (int b = 0; b < ROWS; b++) {
        lent[b] = garbage(places[b]);
        before[b] = copied(lent[b], places[b] * sizeof(uint64_t));
    }
    write_sheet(call, in, lent, places, code);
    size_t rows = code[0] == 0 && code[2] <= LAVKKESTO_PLACES ? code[2] : 0;
    struct text found = {0};
    if (code[0] != 0)
        put(&found, "refused %" PRIu64 " %" PRIu64 "\n", code[0], code[1]);
    else
        put(&found, "fitness %016" PRIx64 "\n", code[3]);
    for (size_t k = 0; k < rows; k++)
        put(&found, "%" PRIu64 " %" PRIu64 " %" PRIu64 " %" PRIu64 " %" PRIu64 "\n", lent[0][k], lent[1][k], lent[2][k], lent[3][k],
            lent[4][k]);
    if (strcmp(found.bytes, due) != 0) error(name, "another answer", due, found.bytes);
    if (code[0] != 0 ? code[2] != 0 || code[3] != 0 : code[1] != 0 || code[2] != rows)
        error(name, "numbers that no answer has", "", "");
    for (int b = 0; b < ROWS; b++) {
        held_as_before(name, lent[b], before[b], rows, places[b]);
        free(lent[b]);
        free(before[b]);
    }
    free(code);
}

/* With enough, and with each buffer one cell short. */
static void hold_sheets(const char *name, sheet_call *call, const struct input *in, const char *due) {
    size_t places[ROWS] = {LAVKKESTO_PLACES, LAVKKESTO_PLACES, LAVKKESTO_PLACES, LAVKKESTO_PLACES, LAVKKESTO_PLACES};
    hold_sheet(name, call, in, places, due);
    for (int b = 0; b < ROWS; b++) {
        places[b]--;
        hold_sheet(name, call, in, places, "refused 6 0\n");
        places[b]++;
    }
    if (call != NULL) return;
    size_t *fewer = copied(in->cells, (LAVKKESTO_CELLS - 1) * sizeof *fewer);
    struct input cut = *in;
    cut.cells = fewer, cut.cells_length = LAVKKESTO_CELLS - 1;
    hold_sheet(name, call, &cut, places, "refused 6 0\n");
    free(fewer);
}

/* The greatest end of the rows in a text. */
static uint64_t greatest_end(const char *text) {
    uint64_t greatest = 0, end;
    for (const char *line = strchr(text, '\n'); line != NULL && line[1] != 0; line = strchr(line + 1, '\n'))
        if (sscanf(line, " %*u %*u %*u %" SCNu64, &end) == 1 && end > greatest) greatest = end;
    return greatest;
}

static void hold_again(const struct input *in, const char *due) {
    for (size_t times = 0; times < 3; times++) {
        calls++;
        uint64_t end = lavkkesto_time_again(in->plan, in->length, in->cells, in->cells_length, in->lens, times);
        if (end != (times == 0 ? 0 : greatest_end(due))) error("time_again", "another makespan", due, "");
    }
}

/* ----------------------------------------------------------------------------------------------------------- a step of the search */

/* The end of an activity's row in a text; 0 where it has none. */
static uint64_t end_of(const char *text, uint64_t activity) {
    uint64_t own, end;
    for (const char *line = strchr(text, '\n'); line != NULL && line[1] != 0; line = strchr(line + 1, '\n'))
        if (sscanf(line, " %" SCNu64 " %*u %*u %" SCNu64, &own, &end) == 2 && own == activity) return end;
    return 0;
}

/* Into views of so many places. The timing of the same lines says what is due: its refusal; or its fitness, and a path to its greatest
   end. The moves are step-check's part; here each is of its kind. */
static void hold_look(const struct input *in, const size_t places[VIEWS], const char *due) {
    uint64_t *lent[VIEWS], *before[VIEWS], *code = garbage(7);
    for (int b = 0; b < VIEWS; b++) {
        lent[b] = garbage(places[b]);
        before[b] = copied(lent[b], places[b] * sizeof(uint64_t));
    }
    calls++;
    lavkkesto_look(in->plan, in->length, in->cells, in->cells_length, in->lens, lent[0], places[0], lent[1], places[1], lent[2],
                   places[2], lent[3], places[3], code);
    struct text found = {0};
    size_t path = code[2], moves = code[3], blocks = code[4], kept = code[4] + code[5];
    int odd = code[0] != 0 ? (path | moves | blocks | kept | code[6]) != 0
                           : code[1] != 0 || path == 0 || path > 128 || moves > 254 || blocks > 3 || code[5] > 3;
    if (code[0] != 0)
        put(&found, "refused %" PRIu64 " %" PRIu64 "\n", code[0], code[1]);
    else
        put(&found, "fitness %016" PRIx64 "\n", code[6]);
    if (strncmp(found.bytes, due, found.length) != 0) error("look", "another answer", due, found.bytes);
    if (odd) error("look", "numbers that no answer has", "", "");
    if (odd || code[0] != 0) path = moves = blocks = kept = 0;
    if (path > 0 && end_of(due, lent[0][path - 1]) != greatest_end(due)) error("look", "a path that ends early", due, "");
    for (size_t k = 0; k < moves; k++)
        if (lent[1][6 * k] > 1) error("look", "no block move", "", "");
    for (size_t k = 0; k < kept; k++)
        if (k < blocks ? lent[2][6 * k] > 1 : lent[2][6 * k] != 2) error("look", "a kept move of another kind", "", "");
    const size_t written[VIEWS] = {path, 6 * moves, 6 * kept, 2 * kept};
    for (int b = 0; b < VIEWS; b++) {
        held_as_before("look", lent[b], before[b], written[b], places[b]);
        free(lent[b]);
        free(before[b]);
    }
    free(code);
}

/* With enough, with each view one cell short, and with the cells of the lines one short. */
static void hold_looks(const struct input *in, const char *due) {
    size_t places[VIEWS] = {LAVKKESTO_PLACES, LAVKKESTO_MOVE_CELLS, LAVKKESTO_PLACES, LAVKKESTO_PLACES};
    hold_look(in, places, due);
    for (int b = 0; b < VIEWS; b++) {
        places[b]--;
        hold_look(in, places, "refused 6 0\n");
        places[b]++;
    }
    size_t *fewer = copied(in->cells, (LAVKKESTO_CELLS - 1) * sizeof *fewer);
    struct input cut = *in;
    cut.cells = fewer, cut.cells_length = LAVKKESTO_CELLS - 1;
    hold_look(&cut, places, "refused 6 0\n");
    free(fewer);
}

/* On the lines of the order, which the rows of their timing give, machine by machine. Without rows there are no lines: 7 then too, but
   nothing to look at where they contradict. */
static void hold_looks_in_order(const struct input *in, const char *due) {
    size_t *cells = garbage(LAVKKESTO_CELLS), lens[LAVKKESTO_MACHINES] = {0}, activity, machine;
    if (strncmp(due, "refused", 7) != 0)
        for (const char *line = strchr(due, '\n'); line != NULL && line[1] != 0; line = strchr(line + 1, '\n')) {
            if (sscanf(line, " %zu %zu", &activity, &machine) != 2 || machine >= LAVKKESTO_MACHINES) stop("no row");
            if (lens[machine] == 128) stop("a line with too many rows");
            cells[128 * machine + lens[machine]++] = activity;
        }
    struct input with = {in->plan, in->length, cells, copied(lens, sizeof lens), LAVKKESTO_CELLS};
    if (strncmp(due, "refused 8", 9) != 0) hold_looks(&with, due);
    free(cells), free((void *)with.lens);
}

/* ------------------------------------------------------------------------------------------------------------------------ Improve */

/* With so many cells, tasks and machines. What the cells held is never told: memcheck would see an answer that depends on it. */
static void hold_improve(const struct input *in, const size_t places[3], size_t n, const char *due) {
    uint64_t *cells = room(places[0] * sizeof *cells), *tasks = garbage(places[1]), *machines = garbage(places[2]);
    uint64_t *tasks_before = copied(tasks, places[1] * sizeof *tasks);
    uint64_t *machines_before = copied(machines, places[2] * sizeof *machines);
    uint64_t *code = garbage(3);
    calls++;
    lavkkesto_improve(in->plan, in->length, cells, places[0], tasks, places[1], machines, places[2], code);
    struct text found = {0};
    size_t written = code[0] == 14 ? n : 0;
    if (code[0] < 10)
        put(&found, "refused %" PRIu64 " %" PRIu64 "\n", code[0], code[1]);
    else
        put(&found, "outcome %" PRIu64 "\n", code[0]);
    if (code[0] >= 13) put(&found, "fitness %016" PRIx64 "\n", code[2]);
    for (size_t k = 0; k < written; k++) put(&found, k == 0 ? "order %" PRIu64 : " %" PRIu64, tasks[k]);
    for (size_t k = 0; k < written; k++) put(&found, k == 0 ? "\nassignment %" PRIu64 : " %" PRIu64, machines[k]);
    if (written > 0) put(&found, "\n");
    if (strcmp(found.bytes, due) != 0) error("improve", "another answer", due, found.bytes);
    if ((code[0] >= 10 && code[1] != 0) || (code[0] < 13 && code[2] != 0)) error("improve", "numbers that no answer has", "", "");
    held_as_before("improve", tasks, tasks_before, written, places[1]);
    held_as_before("improve", machines, machines_before, written, places[2]);
    free(cells), free(tasks), free(machines), free(tasks_before), free(machines_before), free(code);
}

static void hold_improves(const struct input *in, size_t n, const char *due) {
    size_t places[3] = {LAVKKESTO_CELLS, LAVKKESTO_PLACES, LAVKKESTO_PLACES};
    hold_improve(in, places, n, due);
    for (int b = 0; b < 3; b++) {
        places[b]--;
        hold_improve(in, places, n, "refused 6 0\n");
        places[b]++;
    }
}

/* ----------------------------------------------------------------------------------------------------------------- the sheet check */

static void hold_check(const struct input *in, const int64_t *rows, size_t numbers, const uint64_t due[3]) {
    int64_t *sheet = copied(rows, numbers * sizeof *sheet);
    uint64_t *code = garbage(3);
    calls++;
    lavkkesto_check(in->plan, in->length, sheet, numbers, code);
    if (memcmp(code, due, 3 * sizeof *code) != 0) {
        struct text wanted = {0}, found = {0};
        put(&wanted, "%" PRIu64 " %" PRIu64 " %" PRIu64 "\n", due[0], due[1], due[2]);
        put(&found, "%" PRIu64 " %" PRIu64 " %" PRIu64 "\n", code[0], code[1], code[2]);
        error("check", "another answer", wanted.bytes, found.bytes);
    }
    free(sheet);
    free(code);
}

/* The sheet in a decoder's text: accepted, or its lowest activity without a row. Where the plan is refused, so is the sheet. */
static void hold_check_of(const struct input *in, size_t n, const char *text) {
    int64_t rows[4 * LAVKKESTO_PLACES], row[4];
    uint64_t due[3] = {0, 0, 0};
    char seen[LAVKKESTO_PLACES] = {0};
    size_t count = 0, missing = 0;
    if (sscanf(text, "refused %" SCNu64 " %" SCNu64, &due[0], &due[2]) != 2) {
        for (const char *line = strchr(text, '\n'); line != NULL && line[1] != 0; line = strchr(line + 1, '\n'), count++) {
            if (count == LAVKKESTO_PLACES) stop("a sheet with too many rows");
            if (sscanf(line, " %" SCNd64 " %" SCNd64 " %" SCNd64 " %" SCNd64, &row[0], &row[1], &row[2], &row[3]) != 4)
                stop("no row");
            memcpy(rows + 4 * count, row, sizeof row);
            seen[row[0]] = 1;
        }
        while (missing < n && seen[missing]) missing++;
        if (missing < n) due[1] = 10, due[2] = missing;
    }
    hold_check(in, rows, 4 * count, due);
}

/* -------------------------------------------------------------------------------------------------------------------------- Plan S */

/* Every call on these bytes, and its lines of document 01's sheet; all give this refusal. */
static void hold_refused(const uint8_t *plan, size_t length, uint64_t number, size_t place) {
    size_t *cells = garbage(LAVKKESTO_CELLS), lens[LAVKKESTO_MACHINES] = {2, 2};
    cells[0] = 2, cells[1] = 0, cells[128] = 3, cells[129] = 1;
    struct input in = {copied(plan, length), length, cells, copied(lens, sizeof lens), LAVKKESTO_CELLS};
    struct text due = {0};
    put(&due, "refused %" PRIu64 " %zu\n", number, place);
    hold_sheets("time_order", lavkkesto_time_order, &in, due.bytes);
    hold_sheets("in_order", lavkkesto_in_order, &in, due.bytes);
    hold_sheets("active", lavkkesto_active, &in, due.bytes);
    hold_sheets("decode", lavkkesto_decode, &in, due.bytes);
    hold_sheets("time", NULL, &in, due.bytes);
    hold_again(&in, "");
    hold_looks(&in, due.bytes);
    hold_improves(&in, 0, due.bytes);
    hold_check_of(&in, 0, due.bytes);
    free(cells), free((void *)in.plan), free((void *)in.lens);
}

/* Cut short a word is missing, 1; bytes behind the plan are 5; rows of the printed sheet, at first none. */
static void hold_plan_s(const struct input *in) {
    static const int64_t sheet[16] = {2, 0, 0, 1, 3, 1, 1, 6, 0, 0, 1, 4, 1, 1, 6, 10};
    static const uint64_t whole[5][3] = {{0, 10, 0}, {0, 10, 0}, {0, 10, 0}, {0, 10, 1}, {0, 0, 0}};
    for (size_t length = 0; length < in->length; length++) hold_refused(in->plan, length, 1, length / 4 * 4);
    uint8_t *longer = (uint8_t *)garbage(in->length / 8 + 2);
    memcpy(longer, in->plan, in->length);
    for (size_t more = 1; more <= 4; more++) hold_refused(longer, in->length + more, 5, in->length);
    free(longer);
    for (size_t numbers = 0; numbers <= 16; numbers++) {
        uint64_t short_row[3] = {0, 1, numbers / 4};
        hold_check(in, sheet, numbers, numbers % 4 == 0 ? whole[numbers / 4] : short_row);
    }
}

/* ------------------------------------------------------------------------------------------------------------- the stored answers */

enum mode { PROGRAM, IMPROVE, DECODE, IN_ORDER, ACTIVE, TIME, MODES };
static const char *const mode_names[MODES] = {"program", "improve", "decode", "in-order", "active", "time"};

struct stored {
    char name[256];
    uint8_t *plan;
    size_t length;
    /* Words, as many as the file gives. */
    uint8_t *lines;
    size_t lines_length;
    struct text due[MODES];
};

static uint32_t word_at(const uint8_t *bytes, size_t length, size_t at) {
    if (at + 4 > length) stop("lines or counts end too early");
    return bytes[at] | (uint32_t)bytes[at + 1] << 8 | (uint32_t)bytes[at + 2] << 16 | (uint32_t)bytes[at + 3] << 24;
}

static uint8_t *of_hex(const char *digits, size_t *length) {
    *length = strlen(digits) / 2;
    uint8_t *bytes = room(*length);
    for (size_t k = 0; k < *length; k++) {
        unsigned byte;
        if (sscanf(digits + 2 * k, "%2x", &byte) != 1) stop("no hex digits");
        bytes[k] = (uint8_t)byte;
    }
    return bytes;
}

static void hold_lines(const struct stored *one) {
    size_t *cells = garbage(LAVKKESTO_CELLS), lens[LAVKKESTO_MACHINES] = {0}, at = 0;
    for (size_t m = 0; at < one->lines_length; m++) {
        size_t count = word_at(one->lines, one->lines_length, at);
        if (m >= LAVKKESTO_MACHINES) stop("too many lines");
        lens[m] = count;
        /* A line that is too long is refused by its length; its cells need not fit. */
        for (size_t k = 0; k < count; k++)
            if (k < 128) cells[128 * m + k] = word_at(one->lines, one->lines_length, at + 4 + 4 * k);
        at += 4 + 4 * count;
    }
    struct input in = {one->plan, one->length, cells, copied(lens, sizeof lens), LAVKKESTO_CELLS};
    hold_sheets("time", NULL, &in, one->due[TIME].bytes);
    hold_again(&in, one->due[TIME].bytes);
    hold_looks(&in, one->due[TIME].bytes);
    free(cells), free((void *)in.lens);
}

static void hold_case(const struct stored *one) {
    told_case = one->name;
    if (one->lines != NULL) {
        hold_lines(one);
        return;
    }
    struct input in = {.plan = one->plan, .length = one->length};
    int refused = strncmp(one->due[DECODE].bytes, "refused", 7) == 0;
    size_t n = refused ? 0 : word_at(in.plan, in.length, 4 + 20 * (size_t)word_at(in.plan, in.length, 0));
    hold_sheets("time_order", lavkkesto_time_order, &in, one->due[TIME].bytes);
    hold_looks_in_order(&in, one->due[TIME].bytes);
    hold_sheets("in_order", lavkkesto_in_order, &in, one->due[IN_ORDER].bytes);
    hold_sheets("active", lavkkesto_active, &in, one->due[ACTIVE].bytes);
    hold_sheets("decode", lavkkesto_decode, &in, one->due[DECODE].bytes);
    hold_improves(&in, n, one->due[IMPROVE].bytes);
    hold_check_of(&in, n, one->due[DECODE].bytes);
    hold_check_of(&in, n, one->due[ACTIVE].bytes);
    if (strcmp(one->name, "plan-s-steps-60") == 0) hold_plan_s(&in);
}

static void hold_file(const char *path) {
    static struct stored one;
    FILE *file = fopen(path, "r");
    char *line = NULL;
    size_t space = 0;
    int mode = MODES;
    if (file == NULL) stop(path);
    for (ssize_t length; (length = getline(&line, &space, file)) > 0;) {
        if (line[length - 1] == '\n') line[--length] = 0;
        int named = 0;
        while (named < MODES && strcmp(line, mode_names[named]) != 0) named++;
        if (strncmp(line, "case ", 5) == 0) {
            memset(&one, 0, sizeof one);
            snprintf(one.name, sizeof one.name, "%s", line + 5);
        } else if (strncmp(line, "input ", 6) == 0) {
            one.plan = of_hex(line + 6, &one.length);
        } else if (strncmp(line, "lines ", 6) == 0) {
            one.lines = of_hex(line + 6, &one.lines_length);
        } else if (named < MODES) {
            mode = named;
        } else if (strcmp(line, "end") == 0) {
            hold_case(&one);
            free(one.plan), free(one.lines);
            mode = MODES;
        } else if (mode < MODES) {
            put(&one.due[mode], "%s\n", line);
        } else if (line[0] != '#') {
            stop("a line that no stored answer has");
        }
    }
    free(line);
    fclose(file);
}

int main(int count, char **words) {
    for (int k = 1; k < count; k++) hold_file(words[k]);
    printf("boundary: %" PRIu64 " calls, %" PRIu64 " errors\n", calls, errors);
    return errors > 0;
}
