/* The header and the calling convention: document 01's job, A = [4 2; 2 5], b = [8 12], with a second right side [10 9], and the updates
 * of a small arrow. Returns how many checks failed. */
#include <stdio.h>
#include "nosebagged.h"

static int failed;
static void check(int holds, const char *what) {
    if (!holds) {
        failed++;
        printf("failed: %s\n", what);
    }
}

int main(void) {
    const size_t input_starts[] = {0, 1, 3}, input_rows[] = {0, 0, 1}, list[1] = {0};
    const double input_values[] = {4, 2, 5};
    size_t permutation[2], firsts[3], starts[3], groups[3], tasks[4], top[2], words[75], rows[2];
    struct nosebagged_update updates[1];
    double floats[5], values[3], b[] = {8, 12, 10, 9}, column[2];
    size_t results[NOSEBAGGED_RESULTS], answer[3];

    size_t r = nosebagged_factor(2, input_starts, 3, input_rows, 3, input_values, 3, 3, 0, list, 0, NOSEBAGGED_END, permutation, 2, firsts, 3, starts, 3,
        groups, 3, tasks, 4, top, 2, words, 75, floats, 5, rows, 2, updates, 0, values, 3, results);
    check(r == NOSEBAGGED_ACCEPTED && results[NOSEBAGGED_NUMBER] == 0, "factor is accepted");
    check(results[NOSEBAGGED_RECORD] == 3 && results[NOSEBAGGED_N] == 2 && results[NOSEBAGGED_ENTRIES] == 3 && results[NOSEBAGGED_WORK] == 5, "its record");
    check(values[0] == 2 && values[1] == 1 && values[2] == 2, "its values");
    r = nosebagged_solve(results + NOSEBAGGED_RECORD, permutation, 2, firsts, 3, starts, 3, rows, 2, values, 3, words, 75, floats, 5, 1, b, 2, answer);
    check(r == NOSEBAGGED_ACCEPTED && b[0] == 1 && b[1] == 2 && b[2] == 10 && b[3] == 9, "one right side");
    b[0] = 8;
    b[1] = 12;
    r = nosebagged_solve(results + NOSEBAGGED_RECORD, permutation, 2, firsts, 3, starts, 3, rows, 2, values, 3, words, 2, floats, 2, 2, b, 4, answer);
    check(r == NOSEBAGGED_ACCEPTED && b[0] == 1 && b[1] == 2 && b[2] == 2 && b[3] == 1, "two right sides");
    r = nosebagged_solve(results + NOSEBAGGED_RECORD, permutation, 2, firsts, 3, starts, 3, rows, 2, values, 3, words, 75, floats, 5, 65, b, 4, answer);
    check(r == NOSEBAGGED_MANY_SIDES && answer[0] == r && answer[1] == 0 && b[0] == 1, "more than 64 right sides");
    r = nosebagged_solve(results + NOSEBAGGED_RECORD, permutation, 2, firsts, 3, starts, 3, rows, 2, values, 3, words, 75, floats, 5, 0, b, 0, answer);
    check(r == NOSEBAGGED_ACCEPTED && b[0] == 1, "no right side");
    r = nosebagged_solve(results + NOSEBAGGED_RECORD, permutation, 2, firsts, 3, starts, 3, rows, 2, values, 3, words, 75, floats, 5, 2, b, 3, answer);
    check(r == NOSEBAGGED_WRONG_SIDE && answer[0] == r && answer[1] == 3 && b[0] == 1, "a buffer of another length");
    r = nosebagged_column(results + NOSEBAGGED_RECORD, permutation, 2, firsts, 3, starts, 3, rows, 2, values, 3, 1, column, 2);
    check(r == 1 && column[0] == 2 && column[1] == 0, "column 1");
    r = nosebagged_factor(2, input_starts, 3, input_rows, 3, input_values, 3, 2, 0, list, 0, NOSEBAGGED_END, permutation, 2, firsts, 3, starts, 3,
        groups, 3, tasks, 4, top, 2, words, 75, floats, 5, rows, 2, updates, 0, values, 3, results);
    check(r == NOSEBAGGED_OVER_CAP && results[NOSEBAGGED_DETAIL_1] == 3 && results[NOSEBAGGED_DETAIL_2] == 2, "over the cap");
    check(results[NOSEBAGGED_RECORD] == 0 && values[0] == 0 && permutation[1] == 0, "nothing is left of the old factor");
    r = nosebagged_solve(results + NOSEBAGGED_RECORD, permutation, 2, firsts, 3, starts, 3, rows, 2, values, 3, words, 75, floats, 5, 1, b, 2, answer);
    check(r == NOSEBAGGED_NO_FACTOR && b[0] == 1 && b[1] == 2, "no solve after a refusal");

    /* an arrow of three columns: three supernodes, of which the first two update the third */
    const size_t arrow_starts[] = {0, 1, 2, 5}, arrow_rows[] = {0, 1, 0, 1, 2};
    const double arrow_values[] = {4, 4, 1, 1, 4};
    size_t p3[3], f4[4], s4[4], g4[4], t6[6], o3[3], w101[101], r5[5];
    struct nosebagged_update u[3];
    r = nosebagged_analyse(3, arrow_starts, 4, arrow_rows, 5, arrow_values, 5, 100, p3, 3, f4, 4, s4, 4, g4, 4, t6, 6, o3, 3, w101, 101, r5, 5, u, 3, results);
    check(r == NOSEBAGGED_ACCEPTED && results[NOSEBAGGED_SUPERNODES] == 3 && results[NOSEBAGGED_UPDATES] == 2, "analyse of an arrow");
    check(u[0].supernode == 0 && u[0].p1 == 1 && u[0].p2 == 2 && u[1].supernode == 1 && u[1].p1 == 1 && u[1].p2 == 2 && u[2].supernode == 0 && u[2].p2 == 0, "its updates");
    printf("C: %s\n", failed ? "not as expected" : "as expected");
    return failed;
}
