/* Two other solvers, for bench/speed.rs to time beside the library: CSparse (its 64-bit form in CXSparse) and CHOLMOD. In the order
   that is given, one thread. bench/run.sh compiles what is there, by CSPARSE and CHOLMOD. */
#include <stddef.h>
#include <stdlib.h>
#include <string.h>

#ifdef CSPARSE
#include <suitesparse/cs.h>
struct csparse { cs_dl a; cs_dls *s; cs_dln *l; double *x; };

void *csparse_open(long n, long *starts, long *rows, double *values)
{
    struct csparse *h = calloc(1, sizeof *h);
    cs_dl a = { starts[n], n, n, starts, rows, values, -1 };
    h->a = a;
    h->x = malloc(n * sizeof(double));
    return h;
}

static void csparse_drop(struct csparse *h)
{
    h->s = cs_dl_sfree(h->s);
    h->l = cs_dl_nfree(h->l);
}

void csparse_clear(void *p) { csparse_drop(p); }

int csparse_analyse(void *p)
{
    struct csparse *h = p;
    h->s = cs_dl_schol(0, &h->a);
    return h->s != NULL;
}

int csparse_factor(void *p)
{
    struct csparse *h = p;
    h->s = cs_dl_schol(0, &h->a);
    h->l = cs_dl_chol(&h->a, h->s);
    return h->l != NULL;
}

void csparse_solve(void *p, double *b, long sides)
{
    struct csparse *h = p;
    long n = h->a.n;
    for (long j = 0; j < sides; j++, b += n) {
        cs_dl_ipvec(h->s->pinv, b, h->x, n);
        cs_dl_lsolve(h->l->L, h->x);
        cs_dl_ltsolve(h->l->L, h->x);
        cs_dl_pvec(h->s->pinv, h->x, b, n);
    }
}
#endif

#ifdef CHOLMOD
#include <suitesparse/cholmod.h>
struct cholmod { cholmod_common c; cholmod_sparse a; cholmod_factor *l; };

void *cholmod_open(long n, long *starts, long *rows, double *values)
{
    struct cholmod *h = calloc(1, sizeof *h);
    cholmod_l_start(&h->c);
    h->c.nmethods = 1;
    h->c.method[0].ordering = CHOLMOD_NATURAL;
    h->c.postorder = 1;
    h->a.nrow = h->a.ncol = n;
    h->a.nzmax = starts[n];
    h->a.p = starts;
    h->a.i = rows;
    h->a.x = values;
    h->a.stype = 1;
    h->a.itype = CHOLMOD_LONG;
    h->a.xtype = CHOLMOD_REAL;
    h->a.dtype = CHOLMOD_DOUBLE;
    h->a.sorted = 1;
    h->a.packed = 1;
    return h;
}

void cholmod_clear(void *p)
{
    struct cholmod *h = p;
    cholmod_l_free_factor(&h->l, &h->c);
}

int cholmod_analyse_whole(void *p)
{
    struct cholmod *h = p;
    h->l = cholmod_l_analyze(&h->a, &h->c);
    return h->l != NULL;
}

int cholmod_factor_whole(void *p)
{
    struct cholmod *h = p;
    h->l = cholmod_l_analyze(&h->a, &h->c);
    return h->l != NULL && cholmod_l_factorize(&h->a, h->l, &h->c) && h->c.status == CHOLMOD_OK;
}

void cholmod_solve_sides(void *p, double *b, long sides)
{
    struct cholmod *h = p;
    size_t n = h->a.nrow;
    cholmod_dense d = { n, sides, n * sides, n, b, NULL, CHOLMOD_REAL, CHOLMOD_DOUBLE };
    cholmod_dense *x = cholmod_l_solve(CHOLMOD_A, h->l, &d, &h->c);
    memcpy(b, x->x, n * sides * sizeof(double));
    cholmod_l_free_dense(&x, &h->c);
}
#endif
