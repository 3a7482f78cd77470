/* Times cutting all pieces of a job and bringing it back from m of them, beside zfec's C core and memcpy, in one run.
 *
 * zfec keeps the first m blocks as they are and computes n - m check blocks, each from m multiply-adds; here each of
 * the n pieces is computed. So cutting is shown beside zfec twice: its check blocks alone, and scaled to n rows, which
 * is the same number of multiply-adds.
 *
 * Bringing back takes the last m pieces here, and always solves for all m places. zfec is given as many check blocks as
 * it has in place of first blocks, inverts its matrix and computes only the missing blocks; it is shown as it is, and
 * scaled to m rows.
 */
#include <stdio.h>
#include <stdlib.h>
#include <string.h>
#include <time.h>

#include "fec.h"
#include "jobvault.h"

/* The whole table is gone through in several passes, so that a busy spell of the machine does not meet one row alone. */
enum { PASSES = 8, REPEAT = 60 };

struct setting {
    const char *field;
    uint32_t m, n;
    size_t len;
    /* the best times, in microseconds: all pieces, zfec's check blocks, memcpy of the pieces */
    double cut, check, copy;
    /* bringing back from m pieces, and zfec's decoding */
    double join, decode;
};

static uint8_t job[JOBVAULT_LONGEST_JOB];
static uint8_t out[32][JOBVAULT_LONGEST_PIECE];
static uint8_t blocks[16][JOBVAULT_LONGEST_JOB];
static uint8_t copies[32][JOBVAULT_LONGEST_PIECE];
static uint8_t pieces[16 * JOBVAULT_LONGEST_PIECE];
static uint16_t work[JOBVAULT_WORK];
static uint8_t back[JOBVAULT_LONGEST_JOB];

static double now(void)
{
    struct timespec t;
    clock_gettime(CLOCK_MONOTONIC, &t);
    return (double)t.tv_sec * 1e6 + (double)t.tv_nsec / 1e3;
}

static int32_t ours(const struct setting *s)
{
    int32_t len = 0;
    for (uint32_t i = 1; i <= s->n; i++) {
        if (s->field[0] == 'g') {
            len = jobvault_cut_gf256(JOBVAULT_CAUCHY, s->m, s->n, i, 7, 1, job, s->len, out[i - 1], sizeof out[0]);
        } else {
            len = jobvault_cut_mod257(JOBVAULT_CAUCHY, s->m, s->n, i, 7, 1, job, s->len, out[i - 1], sizeof out[0]);
        }
        if (len < 0) {
            fprintf(stderr, "bench: refused: %d\n", (int)len);
            exit(1);
        }
    }
    return len;
}

static void theirs(const fec_t *code, const struct setting *s, size_t size)
{
    const gf *from[16];
    gf *to[32];
    unsigned numbers[32];
    for (uint32_t j = 0; j < s->m; j++) {
        from[j] = blocks[j];
    }
    for (uint32_t i = s->m; i < s->n; i++) {
        to[i - s->m] = copies[i];
        numbers[i - s->m] = i;
    }
    fec_encode(code, from, to, numbers, s->n - s->m, size);
}

/* The last m pieces, one behind the other. */
static void gather(const struct setting *s, size_t piece)
{
    for (uint32_t i = 0; i < s->m; i++) {
        memcpy(pieces + i * piece, out[s->n - 1 - i], piece);
    }
}

static void our_join(const struct setting *s, size_t piece)
{
    int32_t len;
    if (s->field[0] == 'g') {
        len = jobvault_join_gf256(pieces, s->m * piece, piece, work, JOBVAULT_WORK, back, sizeof back);
    } else {
        len = jobvault_join_mod257(pieces, s->m * piece, piece, work, JOBVAULT_WORK, back, sizeof back);
    }
    if (len != (int32_t)s->len || memcmp(back, job, s->len) != 0) {
        fprintf(stderr, "bench: the job did not come back: %d\n", (int)len);
        exit(1);
    }
}

/* How many of the first m blocks zfec is to do without: as many as it has check blocks. */
static uint32_t missing(const struct setting *s)
{
    return s->n - s->m < s->m ? s->n - s->m : s->m;
}

static void their_decode(const fec_t *code, const struct setting *s, size_t size)
{
    static uint8_t found[16][JOBVAULT_LONGEST_JOB];
    const gf *from[16];
    gf *to[16];
    unsigned numbers[16];
    uint32_t gone = missing(s);
    for (uint32_t j = 0; j < s->m; j++) {
        /* the check blocks stand at the places of those that are gone */
        numbers[j] = j < gone ? s->m + j : j;
        from[j] = j < gone ? copies[s->m + j] : blocks[j];
        to[j] = found[j];
    }
    fec_decode(code, from, to, numbers, size);
    if (memcmp(found[0], blocks[0], size) != 0) {
        fprintf(stderr, "bench: zfec's blocks did not come back\n");
        exit(1);
    }
}

static void copied(const struct setting *s, size_t size)
{
    for (uint32_t i = 0; i < s->n; i++) {
        memcpy(copies[i], out[i], size);
        /* keeps the copy from being left out */
        __asm__ volatile("" : : "r"(copies[i]) : "memory");
    }
}

/* How often to do each in one measurement, so that the clock's grain does not count. */
static int often(double once)
{
    int k = once > 0 ? (int)(200.0 / once) : 1000;
    return k < 1 ? 1 : k > 2000 ? 2000 : k;
}

static double best(double was, double took)
{
    return was == 0 || took < was ? took : was;
}

static void measure(struct setting *s)
{
    size_t size = (s->len + s->m - 1) / s->m;
    fec_t *code = fec_new((unsigned short)s->m, (unsigned short)s->n);
    size_t piece = (size_t)ours(s);
    double start = now();
    ours(s);
    int cuts = often(now() - start);
    start = now();
    theirs(code, s, size);
    int checks = often(now() - start);
    gather(s, piece);
    start = now();
    our_join(s, piece);
    int joins = often(now() - start);
    start = now();
    their_decode(code, s, size);
    int decodes = often(now() - start);
    /* one after the other in each turn, so that what else the machine does meets all alike */
    for (int r = 0; r < REPEAT; r++) {
        start = now();
        for (int k = 0; k < cuts; k++) {
            ours(s);
        }
        s->cut = best(s->cut, (now() - start) / cuts);
        start = now();
        for (int k = 0; k < checks; k++) {
            theirs(code, s, size);
        }
        s->check = best(s->check, (now() - start) / checks);
        start = now();
        for (int k = 0; k < joins; k++) {
            our_join(s, piece);
        }
        s->join = best(s->join, (now() - start) / joins);
        start = now();
        for (int k = 0; k < decodes; k++) {
            their_decode(code, s, size);
        }
        s->decode = best(s->decode, (now() - start) / decodes);
        start = now();
        for (int k = 0; k < 200; k++) {
            copied(s, piece);
        }
        s->copy = best(s->copy, (now() - start) / 200);
    }
    fec_free(code);
}

static void show(const struct setting *s)
{
    double rows = s->check * s->n / (s->n - s->m);
    printf("%-6s %2u %2u %5zu %9.2f %8.1f", s->field, (unsigned)s->m, (unsigned)s->n, s->len, s->cut,
           (double)s->len / s->cut);
    printf(" %9.2f %6.2f %9.2f %6.2f", rows, rows / s->cut, s->check, s->check / s->cut);
    printf(" %8.3f %7.4f\n", s->copy, s->copy / s->cut);
}

static void show_back(const struct setting *s)
{
    double rows = s->decode * s->m / missing(s);
    printf("%-6s %2u %2u %5zu %9.2f %8.1f", s->field, (unsigned)s->m, (unsigned)s->n, s->len, s->join,
           (double)s->len / s->join);
    printf(" %9.2f %6.2f %9.2f %6.2f %3u\n", rows, rows / s->join, s->decode, s->decode / s->join, (unsigned)missing(s));
}

int main(void)
{
    static struct setting settings[] = {
        {.field = "gf256", .m = 10, .n = 14, .len = 4096},  {.field = "gf256", .m = 2, .n = 3, .len = 4096},
        {.field = "gf256", .m = 16, .n = 32, .len = 4096},  {.field = "gf256", .m = 10, .n = 14, .len = 64},
        {.field = "gf256", .m = 2, .n = 3, .len = 64},      {.field = "gf256", .m = 16, .n = 32, .len = 64},
        {.field = "mod257", .m = 10, .n = 14, .len = 4096}, {.field = "mod257", .m = 2, .n = 3, .len = 4096},
        {.field = "mod257", .m = 16, .n = 32, .len = 4096}, {.field = "mod257", .m = 10, .n = 14, .len = 64},
        {.field = "mod257", .m = 2, .n = 3, .len = 64},     {.field = "mod257", .m = 16, .n = 32, .len = 64},
    };
    const size_t many = sizeof settings / sizeof settings[0];
    srand(1);
    for (size_t k = 0; k < sizeof job; k++) {
        job[k] = (uint8_t)(rand() >> 7);
        for (size_t j = 0; j < 16; j++) {
            blocks[j][k] = (uint8_t)(rand() >> 7);
        }
    }
    for (int p = 0; p < PASSES; p++) {
        for (size_t k = 0; k < many; k++) {
            measure(&settings[k]);
        }
    }
    printf("Cauchy rows. Times are microseconds for all n pieces of a job, or for one job brought back, the best of %d.\n", PASSES * REPEAT);
    printf("A ratio is the other's time by ours: above 1, ours is faster.\n\n");
    printf("                          cutting     zfec, n rows  zfec, n - m rows           memcpy\n");
    printf("field   m  n   job      time     MB/s      time  ratio      time  ratio     time   ratio\n");
    for (size_t k = 0; k < many; k++) {
        show(&settings[k]);
    }
    printf("\n                    bringing back     zfec, m rows        zfec as it is\n");
    printf("field   m  n   job      time     MB/s      time  ratio      time  ratio  missing blocks\n");
    for (size_t k = 0; k < many; k++) {
        show_back(&settings[k]);
    }
    return 0;
}
