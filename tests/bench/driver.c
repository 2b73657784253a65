/* Calls the library's entries and plain.c's on the same words. Every answer and every lent word of the two is compared first.
 *   driver time CASES MS      a line a case: the label, the firings, nanoseconds of C and of Rattle, each the least of interleaved calls for MS milliseconds
 *   driver count CASES        under callgrind: a dump for each case and side, named 'label|side'
 *   driver stack CASES        a line a case: the label, bytes of stack that C and Rattle touched
 * CASES: lines "label<TAB>call", a call as `rehearse calls` takes it. */
#define _GNU_SOURCE
#include <pthread.h>
#include <stdio.h>
#include <stdlib.h>
#include <string.h>
#include <time.h>
#include <valgrind/callgrind.h>
#include "plain.h"

/* The back end hands a slice over as the address of a pointer and a length. */
typedef struct { const u32 *words; size_t n; } Slice;
u32 r_check_graph(const Slice *);
u32 r_load(const Slice *, const Slice *, const Slice *);
u32 r_fire(const Slice *, const Slice *, size_t node);
u32 r_run(const Slice *, const Slice *, const Slice *, u64 allowance, u64 *firings, u32 *node);

enum { CHECK, LOAD, FIRE, RUN };
enum { C, RATTLE, SIDES };
static const char *side_name[] = {"c", "rattle"};
static const struct { const char *name; int lists, number; } entries[] = {{"check_graph", 1, 0}, {"load", 2, 1}, {"fire", 2, 1}, {"run", 3, 1}};

typedef struct { u32 *w; size_t n, room; } List;
typedef struct { char *label; int entry; u64 number; List l[3]; } Case;
typedef struct { u32 number, answer, node; u64 firings; } Out;
static Case *cases;
static size_t ncases;

static void push(List *l, u32 x)
{
    if (l->n == l->room && !(l->w = realloc(l->w, (l->room = 2 * l->room + 16) * sizeof *l->w))) exit(2);
    l->w[l->n++] = x;
}

static void parse(char *s, Case *c)
{
    char *p = strchr(s, ' ');
    for (c->entry = CHECK; c->entry <= RUN && (!p || strncmp(s, entries[c->entry].name, (size_t)(p - s))); c->entry++) ;
    if (c->entry > RUN) { fprintf(stderr, "%s: no such entry\n", c->label); exit(2); }
    if (entries[c->entry].number) c->number = strtoull(p, &p, 10), p = strchr(p, ';') + 1;
    for (int q = 0; q < entries[c->entry].lists; q++) {
        push(&c->l[q], 0), c->l[q].n = 0;
        for (;;) {
            p += strspn(p, " ");
            if (*p < '0' || *p > '9') break;
            push(&c->l[q], (u32)strtoull(p, &p, 10));
        }
        p += *p == ';';
    }
}

static void read_cases(const char *path)
{
    FILE *f = fopen(path, "r");
    char *line = NULL, *tab;
    size_t room = 0;
    if (!f) { perror(path); exit(2); }
    while (getline(&line, &room, f) > 0) {
        if (!(tab = strchr(line, '\t'))) continue;
        *tab = 0;
        cases = realloc(cases, (ncases + 1) * sizeof *cases);
        memset(&cases[ncases], 0, sizeof *cases);
        cases[ncases].label = strdup(line);
        parse(tab + 1, &cases[ncases++]);
    }
    fclose(f), free(line);
}

static size_t lent_size(const Case *c) { return c->entry == CHECK ? 0 : c->entry == LOAD ? c->number : c->l[1].n; }

static void lend(const Case *c, u32 *lent)
{
    if (c->entry == FIRE || c->entry == RUN) memcpy(lent, c->l[1].w, c->l[1].n * sizeof *lent);
}

static __attribute__((noinline)) Out call(int side, const Case *c, u32 *lent)
{
    Out o = {0};
    const List *g = &c->l[0], *b = &c->l[1], *e = &c->l[2];
    Slice gs = {g->w, g->n}, bs = {b->w, b->n}, ls = {lent, lent_size(c)}, es = {e->w, e->n};
    Fired fired;
    Ran ran;
    if (side == RATTLE) switch (c->entry) {
        case CHECK: o.number = r_check_graph(&gs); break;
        case LOAD: o.number = r_load(&gs, &bs, &ls); break;
        case FIRE: o.answer = r_fire(&gs, &ls, c->number); break;
        case RUN: o.answer = r_run(&gs, &ls, &es, c->number, &o.firings, &o.node); break;
    } else switch (c->entry) {
        case CHECK: o.number = c_check_graph(g->w, g->n); break;
        case LOAD: o.number = c_load(g->w, g->n, b->w, b->n, lent, ls.n); break;
        case FIRE: fired = c_fire(g->w, g->n, lent, ls.n, c->number); o.answer = fired.number ? fired.number : fired.fired ? 100 : 0; break;
        case RUN:
            ran = c_run(g->w, g->n, lent, ls.n, e->w, e->n, c->number);
            o.answer = ran.number ? ran.number : 100 + ran.answer, o.firings = ran.firings, o.node = ran.node;
            break;
    }
    return o;
}

static u64 clock_ns(clockid_t id)
{
    struct timespec t;
    clock_gettime(id, &t);
    return (u64)t.tv_sec * 1000000000u + (u64)t.tv_nsec;
}

/* A call that needs no words lent anew is made 32 times for one reading of the clock. */
static u64 timed(int side, const Case *c, u32 *lent)
{
    int times = c->entry == CHECK || c->entry == LOAD ? 32 : 1;
    lend(c, lent);
    u64 cpu = clock_ns(CLOCK_THREAD_CPUTIME_ID), a = clock_ns(CLOCK_MONOTONIC);
    for (int k = 0; k < times; k++) call(side, c, lent);
    u64 d = clock_ns(CLOCK_MONOTONIC) - a;
    /* others may have the processor during a long call */
    if (d > 100000 && (cpu = clock_ns(CLOCK_THREAD_CPUTIME_ID) - cpu) < d) d = cpu;
    return d / (u64)times;
}

static void time_case(const Case *c, u64 ms)
{
    u32 *lent[SIDES];
    size_t n = lent_size(c);
    Out o[SIDES];
    u64 best[SIDES] = {~0ull, ~0ull}, empty = ~0ull;
    for (int s = 0; s < SIDES; s++) {
        lent[s] = calloc(n + 1, sizeof(u32));
        lend(c, lent[s]);
        o[s] = call(s, c, lent[s]);
    }
    if (memcmp(&o[C], &o[RATTLE], sizeof(Out)) || memcmp(lent[C], lent[RATTLE], n * sizeof(u32))) { fprintf(stderr, "%s: the two differ\n", c->label); exit(1); }
    for (int k = 0; k < 1000; k++) {
        u64 a = clock_ns(CLOCK_MONOTONIC), d = clock_ns(CLOCK_MONOTONIC) - a;
        if (d < empty) empty = d;
    }
    if (c->entry == CHECK || c->entry == LOAD) empty /= 32;
    u64 end = clock_ns(CLOCK_MONOTONIC) + ms * 1000000;
    for (int round = 0; round < 3 || clock_ns(CLOCK_MONOTONIC) < end; round++)
        for (int s = 0; s < SIDES; s++) {
            u64 d = timed(s, c, lent[s]);
            if (d < best[s]) best[s] = d;
        }
    printf("%s\t%llu\t%llu\t%llu\n", c->label, (unsigned long long)o[C].firings, (unsigned long long)(best[C] - empty), (unsigned long long)(best[RATTLE] - empty));
    fflush(stdout);
    free(lent[C]), free(lent[RATTLE]);
}

static void count_case(const Case *c)
{
    u32 *lent = calloc(lent_size(c) + 1, sizeof *lent);
    char label[300];
    for (int s = 0; s < SIDES; s++) {
        snprintf(label, sizeof label, "%s|%s", c->label, side_name[s]);
        lend(c, lent);
        CALLGRIND_ZERO_STATS;
        call(s, c, lent);
        CALLGRIND_DUMP_STATS_AT(label);
    }
    free(lent);
}

static struct { int side; const Case *c; u32 *lent; char *top; } job;

static void *do_job(void *none)
{
    char here;
    job.top = &here;
    if (job.side >= 0) call(job.side, job.c, job.lent);
    return none;
}

/* A thread on a painted stack: how far below its first frame the paint is gone. */
static size_t touched(int side, const Case *c, u32 *lent)
{
    static char *stack;
    size_t size = 1 << 20, i = 0;
    pthread_t t;
    pthread_attr_t a;
    if (!stack && !(stack = aligned_alloc(65536, size))) exit(2);
    memset(stack, 0xa5, size);
    job.side = side, job.c = c, job.lent = lent;
    pthread_attr_init(&a);
    pthread_attr_setstack(&a, stack, size);
    if (pthread_create(&t, &a, do_job, 0)) { perror("thread"); exit(2); }
    pthread_join(t, 0);
    while (i < size && stack[i] == (char)0xa5) i++;
    return (size_t)(job.top - (stack + i));
}

static void stack_case(const Case *c)
{
    u32 *lent = calloc(lent_size(c) + 1, sizeof *lent);
    printf("%s", c->label);
    for (int s = 0; s < SIDES; s++) {
        lend(c, lent);
        printf("\t%zu", touched(s, c, lent));
    }
    printf("\n");
    free(lent);
}

int main(int argc, char **argv)
{
    if (argc < 3) return 2;
    read_cases(argv[2]);
    for (size_t k = 0; k < ncases; k++)
        if (!strcmp(argv[1], "time")) time_case(&cases[k], argc > 3 ? strtoull(argv[3], 0, 10) : 200);
        else if (!strcmp(argv[1], "count")) count_case(&cases[k]);
        else if (!strcmp(argv[1], "stack")) stack_case(&cases[k]);
        else return 2;
    return 0;
}
