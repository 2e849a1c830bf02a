/* The stack that one call takes: the call is made on a stack of its own, which is painted before, and the deepest byte
 * that it changed is looked for. Counted is from the call's return address, which is part of it. */
#include "boresheet.h"
#include <stdio.h>
#include <stdlib.h>
#include <string.h>
#include <sys/mman.h>
#include <ucontext.h>

#define STACK (1 << 20)
#define GUARD (1 << 16) /* below it, and may not be touched */

typedef uint32_t Check(const uint8_t *, size_t, uint8_t *, size_t, uint32_t *);
typedef uint32_t Run(const uint8_t *, size_t, const double *, size_t, uint8_t *, size_t, uint32_t *, uint64_t *);

static char sheet[16384];
static size_t size;
static const double readings[BORESHEET_READINGS] = {46.047125, 7.96531, 2197.42, 112.5, -83.2, 48.75};
static uint8_t kinds[BORESHEET_KINDS];
static uint8_t out[BORESHEET_OUT];
static uint32_t number, line;
static uint64_t written;

/* ---- one call on a painted stack */

static uint8_t *stack;
static ucontext_t outside, inside;
static Check *volatile check;
static Run *volatile run;

static void call_check(void)
{
    number = check((const uint8_t *)sheet, size, kinds, sizeof kinds, &line);
}

static void call_run(void)
{
    number = run((const uint8_t *)sheet, size, readings, BORESHEET_READINGS, out, sizeof out, &line, &written);
}

/* Functions that do nothing: the deepest byte that a call of theirs changes is the return address. */
static uint32_t no_check(const uint8_t *a, size_t b, uint8_t *c, size_t d, uint32_t *e)
{
    (void)a, (void)b, (void)c, (void)d, (void)e;
    return 0;
}

static uint32_t no_run(const uint8_t *a, size_t b, const double *c, size_t d, uint8_t *e, size_t f, uint32_t *g, uint64_t *h)
{
    (void)a, (void)b, (void)c, (void)d, (void)e, (void)f, (void)g, (void)h;
    return 0;
}

static void failed(const char *what)
{
    perror(what);
    exit(2);
}

/* The bytes from the deepest one changed to the top. */
static size_t painted(void (*call)(void), uint8_t paint)
{
    size_t i = 0;
    memset(stack, paint, STACK);
    if (getcontext(&inside) != 0)
        failed("getcontext");
    inside.uc_stack.ss_sp = stack;
    inside.uc_stack.ss_size = STACK;
    inside.uc_link = &outside;
    makecontext(&inside, call, 0);
    if (swapcontext(&outside, &inside) != 0)
        failed("swapcontext");
    while (i < STACK && stack[i] == paint)
        i++;
    return STACK - i;
}

/* With two paints, since what is written may be the paint. */
static size_t deepest(void (*call)(void))
{
    size_t a = painted(call, 0xa5), b = painted(call, 0x5a);
    return a > b ? a : b;
}

static size_t check_takes(void)
{
    size_t nothing, all;
    check = no_check;
    nothing = deepest(call_check);
    check = boresheet_check;
    all = deepest(call_check);
    return all - nothing + sizeof(void *);
}

static size_t run_takes(void)
{
    size_t nothing, all;
    run = no_run;
    nothing = deepest(call_run);
    run = boresheet_run;
    all = deepest(call_run);
    return all - nothing + sizeof(void *);
}

/* ---- the sheets */

static void put(const char *text)
{
    size_t more = strlen(text);
    if (more > sizeof sheet - size) {
        fputs("stack: the sheet is too long\n", stderr);
        exit(2);
    }
    memcpy(sheet + size, text, more);
    size += more;
}

static void line_1(void)
{
    size = 0;
    put("(ellipsoid wgs84)\n");
}

/* A let of a vector within so many brackets of neg. */
static void nest(int negs, const char *vector)
{
    put("(let v ");
    for (int i = 0; i < negs; i++)
        put("(neg ");
    put(vector);
    for (int i = 0; i < negs; i++)
        put(")");
    put(")\n");
}

/* In all of these the innermost bracket is the twelfth, but for the last, where it is the thirteenth. */
static void nest_venu(void)
{
    line_1();
    nest(9, "(venu (m 1) (m 2) (m 3))");
}

static void nest_look(void)
{
    line_1();
    nest(7, "(to (look (geo (m 6400000) (m 1) (m 2)) (geo (m 6400000) (m 100) (m 2)) (deg 3)) (geo (m 1) (m 2) (m 3)))");
}

static void nest_refused(void)
{
    line_1();
    put("(show nobody)\n");
    nest(9, "(venu (m 1) (m 2) (m 3))");
}

static void nest_more(void)
{
    line_1();
    nest(10, "(venu (m 1) (m 2) (m 3))");
}

static void tip(void)
{
    line_1();
    put("(let c (lla (deg r0) (deg r1) (m r2)))\n(let t (tolla (at (enu c) (aenu (deg r3) (deg r4) (m r5)))))\n(show t)\n");
}

/* A site's sheet of 96 lines, bore after bore. */
static void site(void)
{
    static const char *const steps[] = {
        "(let c%02d (lla (deg 46.51%02d45) (deg 8.12%02d56) (m 812.%02d)))\n",
        "(let f%02d (enu c%02d))\n",
        "(let d%02d (aenu (deg 132.%02d) (deg -78.25) (m 42.%02d)))\n",
        "(let t%02d (at f%02d d%02d))\n",
        "(let p%02d (tolla t%02d))\n",
        "(let b%02d (bearing (to f00 t%02d)))\n",
        "(show b%02d)\n",
        "(show p%02d)\n",
    };
    line_1();
    for (int i = 0; i < 95; i++) {
        char text[200];
        int b = i / 8;
        snprintf(text, sizeof text, steps[i % 8], b, b, b, b);
        put(text);
    }
}

static void must_answer(const char *name, const char *what, uint32_t want, uint32_t want_line)
{
    if (number == want && line == want_line)
        return;
    fprintf(stderr, "stack: %s: the %s answers %u at line %u\n", name, what, (unsigned)number, (unsigned)line);
    exit(1);
}

/* One row: the sheet, and the number and line that both calls must answer. */
static void row(const char *name, void (*make)(void), uint32_t want, uint32_t want_line)
{
    size_t a, b;
    make();
    a = check_takes();
    must_answer(name, "check", want, want_line);
    b = run_takes();
    must_answer(name, "run", want, want_line);
    printf("  %-46s %8zu %7.1f %8zu %7.1f\n", name, a, (double)a / 1024, b, (double)b / 1024);
}

int main(void)
{
    uint8_t *all = mmap(NULL, GUARD + STACK, PROT_READ | PROT_WRITE, MAP_PRIVATE | MAP_ANONYMOUS, -1, 0);
    if (all == MAP_FAILED || mprotect(all, GUARD, PROT_NONE) != 0)
        failed("a stack");
    stack = all + GUARD;
    puts("the stack of one call                            check: B     KiB   run: B     KiB");
    row("brackets 12 deep: nine neg, venu, m", nest_venu, 0, 0);
    row("brackets 12 deep: seven neg, to, look, geo, m", nest_look, 0, 0);
    row("the first of these behind a line refused 5", nest_refused, BORESHEET_NAME, 2);
    row("brackets 13 deep, refused 3", nest_more, BORESHEET_FORM, 2);
    row("the tip sheet", tip, 0, 0);
    row("line 1 alone", line_1, 0, 0);
    row("a site's sheet of 96 lines", site, 0, 0);
    return 0;
}
