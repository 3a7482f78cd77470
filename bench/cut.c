/* Times cutting all pieces of a job, beside zfec's C core and memcpy, in one run.
 *
 * zfec keeps the first m blocks as they are and computes n - m check blocks, each from m multiply-adds; here each of
 * the n pieces is computed. So zfec is shown twice: its check blocks alone, and scaled to n rows, which is the same
 * number of multiply-adds.
 */
#include <stdio.h>
#include <stdlib.h>
#include <string.h>
#include <time.h>

#include "fec.h"
#include "jobvault.h"

/* The whole table is gone through in several passes, so that a busy spell of the machine does not meet one row alone. */
enum { PASSES = 8, REPEAT = 60 };

struct setting {
    const char *field;
    uint32_t m, n;
    size_t len;
    /* the best times, in microseconds: all pieces, zfec's check blocks, memcpy of the pieces */
    double cut, check, copy;
};

static uint8_t job[JOBVAULT_LONGEST_JOB];
static uint8_t out[32][JOBVAULT_LONGEST_PIECE];
static uint8_t blocks[16][JOBVAULT_LONGEST_JOB];
static uint8_t copies[32][JOBVAULT_LONGEST_PIECE];

static double now(void)
{
    struct timespec t;
    clock_gettime(CLOCK_MONOTONIC, &t);
    return (double)t.tv_sec * 1e6 + (double)t.tv_nsec / 1e3;
}

static int32_t ours(const struct setting *s)
{
    int32_t len = 0;
    for (uint32_t i = 1; i <= s->n; i++) {
        if (s->field[0] == 'g') {
            len = jobvault_cut_gf256(JOBVAULT_CAUCHY, s->m, s->n, i, 7, 1, job, s->len, out[i - 1], sizeof out[0]);
        } else {
            len = jobvault_cut_mod257(JOBVAULT_CAUCHY, s->m, s->n, i, 7, 1, job, s->len, out[i - 1], sizeof out[0]);
        }
        if (len < 0) {
            fprintf(stderr, "bench: refused: %d\n", (int)len);
            exit(1);
        }
    }
    return len;
}

static void theirs(const fec_t *code, const struct setting *s, size_t size)
{
    const gf *from[16];
    gf *to[32];
    unsigned numbers[32];
    for (uint32_t j = 0; j < s->m; j++) {
        from[j] = blocks[j];
    }
    for (uint32_t i = s->m; i < s->n; i++) {
        to[i - s->m] = copies[i];
        numbers[i - s->m] = i;
    }
    fec_encode(code, from, to, numbers, s->n - s->m, size);
}

static void copied(const struct setting *s, size_t size)
{
    for (uint32_t i = 0; i < s->n; i++) {
        memcpy(copies[i], out[i], size);
        /* keeps the copy from being left out */
        __asm__ volatile("" : : "r"(copies[i]) : "memory");
    }
}

/* How often to do each in one measurement, so that the clock's grain does not count. */
static int often(double once)
{
    int k = once > 0 ? (int)(200.0 / once) : 1000;
    return k < 1 ? 1 : k > 2000 ? 2000 : k;
}

static double best(double was, double took)
{
    return was == 0 || took < was ? took : was;
}

static void measure(struct setting *s)
{
    size_t size = (s->len + s->m - 1) / s->m;
    fec_t *code = fec_new((unsigned short)s->m, (unsigned short)s->n);
    size_t piece = (size_t)ours(s);
    double start = now();
    ours(s);
    int cuts = often(now() - start);
    start = now();
    theirs(code, s, size);
    int checks = often(now() - start);
    /* one after the other in each turn, so that what else the machine does meets all alike */
    for (int r = 0; r < REPEAT; r++) {
        start = now();
        for (int k = 0; k < cuts; k++) {
            ours(s);
        }
        s->cut = best(s->cut, (now() - start) / cuts);
        start = now();
        for (int k = 0; k < checks; k++) {
            theirs(code, s, size);
        }
        s->check = best(s->check, (now() - start) / checks);
        start = now();
        for (int k = 0; k < 200; k++) {
            copied(s, piece);
        }
        s->copy = best(s->copy, (now() - start) / 200);
    }
    fec_free(code);
}

static void show(const struct setting *s)
{
    double rows = s->check * s->n / (s->n - s->m);
    printf("%-6s %2u %2u %5zu %9.2f %8.1f", s->field, (unsigned)s->m, (unsigned)s->n, s->len, s->cut,
           (double)s->len / s->cut);
    printf(" %9.2f %6.2f %9.2f %6.2f", rows, rows / s->cut, s->check, s->check / s->cut);
    printf(" %8.3f %7.4f\n", s->copy, s->copy / s->cut);
}

int main(void)
{
    static struct setting settings[] = {
        {.field = "gf256", .m = 10, .n = 14, .len = 4096},  {.field = "gf256", .m = 2, .n = 3, .len = 4096},
        {.field = "gf256", .m = 16, .n = 32, .len = 4096},  {.field = "gf256", .m = 10, .n = 14, .len = 64},
        {.field = "gf256", .m = 2, .n = 3, .len = 64},      {.field = "gf256", .m = 16, .n = 32, .len = 64},
        {.field = "mod257", .m = 10, .n = 14, .len = 4096}, {.field = "mod257", .m = 2, .n = 3, .len = 4096},
        {.field = "mod257", .m = 16, .n = 32, .len = 4096}, {.field = "mod257", .m = 10, .n = 14, .len = 64},
        {.field = "mod257", .m = 2, .n = 3, .len = 64},     {.field = "mod257", .m = 16, .n = 32, .len = 64},
    };
    const size_t many = sizeof settings / sizeof settings[0];
    srand(1);
    for (size_t k = 0; k < sizeof job; k++) {
        job[k] = (uint8_t)(rand() >> 7);
        for (size_t j = 0; j < 16; j++) {
            blocks[j][k] = (uint8_t)(rand() >> 7);
        }
    }
    for (int p = 0; p < PASSES; p++) {
        for (size_t k = 0; k < many; k++) {
            measure(&settings[k]);
        }
    }
    printf("Cauchy rows. Times are microseconds for all n pieces of a job, the best of %d.\n", PASSES * REPEAT);
    printf("A ratio is the other's time by ours: above 1, ours is faster.\n\n");
    printf("                          cutting     zfec, n rows  zfec, n - m rows           memcpy\n");
    printf("field   m  n   job      time     MB/s      time  ratio      time  ratio     time   ratio\n");
    for (size_t k = 0; k < many; k++) {
        show(&settings[k]);
    }
    return 0;
}
