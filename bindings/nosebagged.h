/* Nosebagged: sparse Cholesky, A = L L^T, and the solution of A x = b. The static library is made by `rt lib` in crates/exports
 * (crates/exports/out/libexports.a, for x86-64).
 *
 * All memory is lent by the caller. Each slice is a pointer and a count. A call ends with an answer for every content of the
 * slices and every number; what C cannot promise, the caller must:
 *   - a pointer is aligned, is not null (also where the count is 0), and points to as many items as the count says;
 *   - nothing that is written (no `const`) overlaps anything else that is lent to the same call;
 *   - nothing else reads or writes the lent memory while the call runs;
 *   - the floating-point mode is the default one (round to nearest, subnormals kept): not after -ffast-math or fesetround.
 *
 * The matrix is stored by upper columns: column k's rows, at most k and rising, stand in input_rows from input_starts[k] to
 * input_starts[k + 1], their values beside them. n is at most 32,768, the stored rows at most 1,048,576. */
#ifndef NOSEBAGGED_H
#define NOSEBAGGED_H
#include <stddef.h>

#ifdef __cplusplus
extern "C" {
#endif

/* The numbers that a call can answer, and their details (0 where there is none). */
enum {
    NOSEBAGGED_ACCEPTED = 0,
    NOSEBAGGED_OVER_LIMIT = 1,      /* n or the stored rows are over their limit */
    NOSEBAGGED_WRONG_LENGTHS = 2,   /* starts are not n + 1 long (1); rows and values differ in length (2) */
    NOSEBAGGED_WRONG_STARTS = 3,    /* the first position at fault */
    NOSEBAGGED_WRONG_COLUMN = 4,    /* the first column whose rows break a rule */
    NOSEBAGGED_SHORT_AREA = 5,      /* the lowest short area, what it needs */
    NOSEBAGGED_OVER_CAP = 6,        /* the factor's entries, the cap */
    NOSEBAGGED_WRONG_ORDER = 8,     /* position in the order list, or the supernode count */
    NOSEBAGGED_WRONG_PIVOT = 9,     /* the column, in the matrix's own numbering */
    NOSEBAGGED_WRONG_SIDE = 10,     /* the length of b, which is not n for each right side */
    NOSEBAGGED_NO_FACTOR = 11,      /* record or areas are no full factor */
    NOSEBAGGED_WRONG_STRUCTURE = 12, /* never given */
    NOSEBAGGED_MANY_SIDES = 14      /* more than 64 right sides */
};

/* The results of analyse and factor: 12 words. The last nine are the record, which solve and column take back. */
enum {
    NOSEBAGGED_NUMBER,   /* what the call returns too */
    NOSEBAGGED_DETAIL_1,
    NOSEBAGGED_DETAIL_2,
    NOSEBAGGED_RECORD,   /* from here on the record; its state: 0 empty, 1 analysed, 2 partial, 3 full */
    NOSEBAGGED_N,
    NOSEBAGGED_SUPERNODES,
    NOSEBAGGED_ROWS,     /* structure rows, in area 9 */
    NOSEBAGGED_UPDATES,  /* updates, in area 10 */
    NOSEBAGGED_TASKS,    /* tasks, in area 5 */
    NOSEBAGGED_TOP,      /* supernodes above the tasks, in area 6 */
    NOSEBAGGED_ENTRIES,  /* entries of L, in area 11 */
    NOSEBAGGED_WORK,     /* the sum over columns of the squared column count */
    NOSEBAGGED_RESULTS   /* how many words: 12 */
};

/* Supernode `supernode` updates the target that owns its rows at the positions p1 to p2, p2 not among them. */
struct nosebagged_update {
    size_t supernode;
    size_t p1;
    size_t p2;
};

/* The stop word that means the end. No count that may stand is as large. */
#define NOSEBAGGED_END ((size_t)-1)

/* The areas, with a the number of stored rows. Accepted: each holds its part from the start and zeros after it. Refused: all are
 * zero. Areas 7 and 8 are zero after every call.
 *    1 permutation   n            the original column at each place of the postorder
 *    2 firsts        n + 1        the first column of each supernode, then n
 *    3 starts        n + 1        where each supernode's rows start in area 9, then their number
 *    4 groups        n + 1        where each supernode's updates start in area 10, then their number
 *    5 tasks         2 n          first supernode and one past the last, of each task
 *    6 top           n            the supernodes above the tasks
 *    7 words         24 n + a + 24  scratch; n for solve
 *    8 floats        a + n        scratch (factor only); n for solve
 *    9 rows          as many as there are: row structures, supernode by supernode
 *   10 updates       as many as there are, grouped by target, lower supernode first
 *   11 values        the entries of L (factor only), supernode by supernode, column by column, diagonal first
 * Needs of 9, 10 and 11 are not known beforehand: a call that is refused with 5 says what the lowest short one needs. */

/* The structure of the factor, if it has at most cap entries. Returns the number. */
size_t nosebagged_analyse(
    size_t n,
    const size_t *input_starts, size_t input_starts_count,
    const size_t *input_rows, size_t input_rows_count,
    const double *input_values, size_t input_values_count,
    size_t cap,
    size_t *permutation, size_t permutation_count,
    size_t *firsts, size_t firsts_count,
    size_t *starts, size_t starts_count,
    size_t *groups, size_t groups_count,
    size_t *tasks, size_t tasks_count,
    size_t *top, size_t top_count,
    size_t *words, size_t words_count,
    size_t *rows, size_t rows_count,
    struct nosebagged_update *updates, size_t updates_count,
    size_t results[NOSEBAGGED_RESULTS]);

/* Analyses anew and works out the values. order: 0 is the plain order, any other word that of the list, which must then name each
 * supernode once, children first. stop: NOSEBAGGED_END, or after how many supernodes of the order; below their number the record
 * is partial. Returns the number. */
size_t nosebagged_factor(
    size_t n,
    const size_t *input_starts, size_t input_starts_count,
    const size_t *input_rows, size_t input_rows_count,
    const double *input_values, size_t input_values_count,
    size_t cap,
    size_t order,
    const size_t *list, size_t list_count,
    size_t stop,
    size_t *permutation, size_t permutation_count,
    size_t *firsts, size_t firsts_count,
    size_t *starts, size_t starts_count,
    size_t *groups, size_t groups_count,
    size_t *tasks, size_t tasks_count,
    size_t *top, size_t top_count,
    size_t *words, size_t words_count,
    double *floats, size_t floats_count,
    size_t *rows, size_t rows_count,
    struct nosebagged_update *updates, size_t updates_count,
    double *values, size_t values_count,
    size_t results[NOSEBAGGED_RESULTS]);

/* b has as many right sides as `sides` says, at most 64, n numbers each, one after another. Each becomes its own solution, with the
 * bits that solving it alone gives. record is the last nine words of factor's results; a state that is none of 0 to 3 is taken as
 * empty. The areas are as factor left them; areas 7 and 8 need n each, however many right sides there are. answer becomes the
 * number and its two details. Refused (11, 14, 10, 5): all of b is unchanged. Returns the number. */
size_t nosebagged_solve(
    const size_t record[9],
    const size_t *permutation, size_t permutation_count,
    const size_t *firsts, size_t firsts_count,
    const size_t *starts, size_t starts_count,
    const size_t *rows, size_t rows_count,
    const double *values, size_t values_count,
    size_t *words, size_t words_count,
    double *floats, size_t floats_count,
    size_t sides,
    double *b, size_t b_count,
    size_t answer[3]);

/* Column q of L, in factor numbering, diagonal first. Returns its length, 0 where record or areas are no full factor or q is not
 * below n. to holds the column and zeros after it, or zeros alone where it is too short: lend none to learn the length. */
size_t nosebagged_column(
    const size_t record[9],
    const size_t *permutation, size_t permutation_count,
    const size_t *firsts, size_t firsts_count,
    const size_t *starts, size_t starts_count,
    const size_t *rows, size_t rows_count,
    const double *values, size_t values_count,
    size_t q,
    double *to, size_t to_count);

#ifdef __cplusplus
}
#endif
#endif
