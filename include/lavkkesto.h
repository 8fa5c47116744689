/* The calls of the archive that `compare/archive` makes, for programs in C on x86-64. docs/CALLS.md says what each takes, answers and leaves.
   A slice is a pointer and a count of elements; the memory behind it is the caller's, and slices that are written must not overlap others. */
#ifndef LAVKKESTO_H
#define LAVKKESTO_H

#include <stddef.h>
#include <stdint.h>

#ifdef __cplusplus
extern "C" {
#endif

/* Places that a result needs, machines, cells that lines need, and cells that the block moves of a step need. */
enum { LAVKKESTO_PLACES = 128, LAVKKESTO_MACHINES = 16, LAVKKESTO_CELLS = 2048, LAVKKESTO_MOVE_CELLS = 1536 };

/* Timing of given lines: machine m's line is the first lens[m] cells from cell 128 m on.
   code: number, place, 0, 0 for a refusal; else 0, 0, rows, bits of the fitness. */
void lavkkesto_time(const uint8_t *plan, size_t plan_len, const size_t *cells, size_t cells_len, const size_t lens[16],
                    size_t *activities, size_t activities_len, size_t *machines, size_t machines_len, uint64_t *starts,
                    size_t starts_len, uint64_t *ends, size_t ends_len, uint64_t *setups, size_t setups_len,
                    uint64_t code[4]);

/* Timing of the lines that the plan's own Order and Assignment give. */
void lavkkesto_time_order(const uint8_t *plan, size_t plan_len, size_t *activities, size_t activities_len,
                          size_t *machines, size_t machines_len, uint64_t *starts, size_t starts_len, uint64_t *ends,
                          size_t ends_len, uint64_t *setups, size_t setups_len, uint64_t code[4]);

/* The sheet of the decoder that places in order, of the active one, and the better of the two. */
void lavkkesto_in_order(const uint8_t *plan, size_t plan_len, size_t *activities, size_t activities_len,
                        size_t *machines, size_t machines_len, uint64_t *starts, size_t starts_len, uint64_t *ends,
                        size_t ends_len, uint64_t *setups, size_t setups_len, uint64_t code[4]);
void lavkkesto_active(const uint8_t *plan, size_t plan_len, size_t *activities, size_t activities_len, size_t *machines,
                      size_t machines_len, uint64_t *starts, size_t starts_len, uint64_t *ends, size_t ends_len,
                      uint64_t *setups, size_t setups_len, uint64_t code[4]);
void lavkkesto_decode(const uint8_t *plan, size_t plan_len, size_t *activities, size_t activities_len, size_t *machines,
                      size_t machines_len, uint64_t *starts, size_t starts_len, uint64_t *ends, size_t ends_len,
                      uint64_t *setups, size_t setups_len, uint64_t code[4]);

/* Improve: cells are work space, at least 2,048. code: number, place, 0 for a refusal; 10, 11 or 12, 0, 0; 13 or 14, 0, bits
   of the best line fitness. At 14 the first cells of tasks and machines hold what was found; else nothing is written. */
void lavkkesto_improve(const uint8_t *plan, size_t plan_len, size_t *cells, size_t cells_len, size_t *tasks,
                       size_t tasks_len, size_t *machines, size_t machines_len, uint64_t code[3]);

/* One step of the search on given lines: its critical path; every block move, six numbers each; the kept block moves, then the
   kept reassignments, six numbers each; their ranks, length and time each. A move is 0, machine, position, 0, 0, 0 (swap);
   1, machine, from, to, 0, 0 (shift); 2, activity, machine, position, new machine, new position (reassignment).
   code: number, place and five times 0 for a refusal; else 0, 0, activities of the path, block moves, kept block moves, kept
   reassignments, bits of the line fitness. */
void lavkkesto_look(const uint8_t *plan, size_t plan_len, const size_t *cells, size_t cells_len, const size_t lens[16],
                    size_t *path, size_t path_len, size_t *moves, size_t moves_len, size_t *kept, size_t kept_len,
                    uint64_t *ranks, size_t ranks_len, uint64_t code[7]);

/* The sheet check: rows of four numbers, activity, machine, start, end. code: number, 0, place for a refusal; 0, 0, 0 where
   the sheet is accepted; 0, rule, row where a row is bad; 0, 10, activity where one has no row. */
void lavkkesto_check(const uint8_t *plan, size_t plan_len, const int64_t *rows, size_t rows_len, uint64_t code[3]);

/* For measuring: the makespan of the last of so many timings of the same lines; 0 where there is none. */
uint64_t lavkkesto_time_again(const uint8_t *plan, size_t plan_len, const size_t *cells, size_t cells_len,
                              const size_t lens[16], size_t times);

#ifdef __cplusplus
}
#endif

#endif
