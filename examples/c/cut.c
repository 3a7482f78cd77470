/* Cuts a file into pieces and prints them in hexadecimal, one to a line.
 *
 *     cut [FILE [FIELD [ROWS [M [N [JOB-NUMBER [STAMP]]]]]]]
 *
 * FIELD is gf256 or mod257, the rest are numbers. Without a file it cuts a built-in job.
 *
 * Build, from the repository's root, after rt lib in crates/capi:
 *
 *     cc -Wall -Wextra -Iinclude -o cut examples/c/cut.c crates/capi/out/libcapi.a
 */
#include <errno.h>
#include <inttypes.h>
#include <stdio.h>
#include <stdlib.h>
#include <string.h>

#include "jobvault.h"

typedef int32_t cut_function(uint32_t, uint32_t, uint32_t, uint32_t, uint16_t, uint32_t, const uint8_t *, size_t,
                             uint8_t *, size_t);

static const char built_in[] = "side panel 720 x 560, oak; drill 8 mm at 37 37, 37 523, 683 37, 683 523\n";

static int number(const char *text, uint32_t most, uint32_t *value)
{
    char *end;
    errno = 0;
    unsigned long long v = strtoull(text, &end, 0);
    if (errno != 0 || end == text || *end != '\0' || strchr(text, '-') != NULL || v > most) {
        fprintf(stderr, "cut: not a number from 0 to %" PRIu32 ": %s\n", most, text);
        return 0;
    }
    *value = (uint32_t)v;
    return 1;
}

static const char *reason(int32_t refusal)
{
    switch (refusal) {
    case JOBVAULT_BAD_SETTINGS:
        return "the rows kind, m or n is out of range";
    case JOBVAULT_LONG_JOB:
        return "the job is longer than 4096 bytes";
    case JOBVAULT_NO_PIECE:
        return "there is no piece of this number";
    case JOBVAULT_NO_ROOM:
        return "the buffer is too short";
    default:
        return "an unknown refusal";
    }
}

int main(int argc, char **argv)
{
    /* One byte more than a job may have, so that a longer file is refused and not cut short. */
    uint8_t job[JOBVAULT_LONGEST_JOB + 1];
    uint8_t piece[JOBVAULT_LONGEST_PIECE];
    size_t job_len;
    cut_function *cut = jobvault_cut_gf256;
    /* rows, m, n, job number, stamp */
    uint32_t set[5] = {JOBVAULT_CAUCHY, 2, 3, 7, 1};

    if (argc > 8) {
        fprintf(stderr, "cut: too many words\n");
        return 1;
    }
    if (argc > 1) {
        FILE *file = fopen(argv[1], "rb");
        if (file == NULL) {
            fprintf(stderr, "cut: cannot open %s: %s\n", argv[1], strerror(errno));
            return 1;
        }
        job_len = fread(job, 1, sizeof job, file);
        int bad = ferror(file);
        fclose(file);
        if (bad) {
            fprintf(stderr, "cut: cannot read %s\n", argv[1]);
            return 1;
        }
    } else {
        job_len = sizeof built_in - 1;
        memcpy(job, built_in, job_len);
    }
    if (argc > 2) {
        if (strcmp(argv[2], "mod257") == 0) {
            cut = jobvault_cut_mod257;
        } else if (strcmp(argv[2], "gf256") != 0) {
            fprintf(stderr, "cut: no such field: %s\n", argv[2]);
            return 1;
        }
    }
    for (int i = 3; i < argc; i++) {
        if (!number(argv[i], i == 6 ? UINT16_MAX : UINT32_MAX, &set[i - 3])) {
            return 1;
        }
    }

    /* The number 1 comes first even where n is 0, so that bad settings are told. */
    uint32_t i = 1;
    do {
        int32_t len = cut(set[0], set[1], set[2], i, (uint16_t)set[3], set[4], job, job_len, piece, sizeof piece);
        if (len < 0) {
            fprintf(stderr, "cut: piece %" PRIu32 " is refused (%" PRId32 "): %s\n", i, len, reason(len));
            return 1;
        }
        for (int32_t k = 0; k < len; k++) {
            printf("%02x", piece[k]);
        }
        printf("\n");
        i++;
    } while (i <= set[2]);
    return 0;
}
