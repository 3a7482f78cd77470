/* The job vault for C: cuts a job into pieces, any m of which bring it back, and brings it back.
 *
 * docs/FORMAT.md says what a piece is to the bit, docs/COLLECTIONS.md how a job is brought back, docs/C.md how to build
 * and link.
 *
 * The functions hold no state, allocate nothing and do no input or output. Any number of threads may call them at
 * once, as long as no call's `out`, `work` or `job` is in use by another. A call takes about 20 KB of stack.
 */
#ifndef JOBVAULT_H
#define JOBVAULT_H

#include <stddef.h>
#include <stdint.h>

#ifdef __cplusplus
extern "C" {
#endif

/* Rows kinds. */
#define JOBVAULT_VANDERMONDE 0u
#define JOBVAULT_CAUCHY 1u

/* The longest job and the longest piece, in bytes. A buffer of JOBVAULT_LONGEST_PIECE holds every piece. */
#define JOBVAULT_LONGEST_JOB 4096u
#define JOBVAULT_LONGEST_PIECE 4618u

/* The work that bringing a job back needs, in 16-bit numbers, whatever the job. */
#define JOBVAULT_WORK 4623u

/* Refusals, as they are answered. The first that applies is answered. */
#define JOBVAULT_BAD_SETTINGS (-1) /* rows is not 0 or 1, m is not 1 to 16, or n is not m to 32 */
#define JOBVAULT_LONG_JOB (-2)     /* the job is longer than 4,096 bytes */
#define JOBVAULT_NO_PIECE (-3)     /* number is not 1 to n */
#define JOBVAULT_NO_ROOM (-4)      /* out_len is less than the piece's length */
#define JOBVAULT_SHORT_WORK (-5)   /* work_len is less than JOBVAULT_WORK */
#define JOBVAULT_SHORT_PIECE (-6)  /* a piece has fewer than 10 bytes */
#define JOBVAULT_OTHER_FIELD (-7)  /* a piece is of another field */
#define JOBVAULT_BAD_HEADER (-8)   /* a header has a rows kind above 1, m or number above n, or a length above 4,096 */
#define JOBVAULT_BAD_BODY (-9)     /* a body has the wrong length */
#define JOBVAULT_BAD_VALUE (-10)   /* a value of a body is no code of the field, or a spare bit is 1 */
#define JOBVAULT_TOO_MANY (-11)    /* there are more than m pieces */
#define JOBVAULT_DIFFERS (-12)     /* a piece differs from the first in settings, length, job number or stamp */
#define JOBVAULT_AGAIN (-13)       /* two pieces have the same number */
#define JOBVAULT_TOO_FEW (-14)     /* there are fewer than m pieces */
#define JOBVAULT_SHORT_JOB (-20)   /* job_len is less than the job's length */
#define JOBVAULT_NO_JOB (-21)      /* no job of the stated length has these pieces */

/* Cut the piece `number` (1 to n) of a job over GF(2^8), or over the integers modulo 257.
 *
 * rows        JOBVAULT_VANDERMONDE or JOBVAULT_CAUCHY
 * m, n        how many pieces bring the job back (1 to 16), and how many there are (m to 32)
 * job_number  the caller's; all 16 bits are stored in the piece
 * stamp       the caller's; tells successive versions of one job apart
 * job         job_len bytes, 0 to 4,096; read only
 * out         out_len bytes; the piece is written to its front
 *
 * Answers the piece's length, 10 to 4,618, and leaves the bytes of `out` behind it as they were; or answers a refusal
 * and leaves all of `out` as it was. A piece has 10 bytes and then ceil(K * w / 8), where K is job_len / m rounded up
 * and w is 8 over GF(2^8), 9 modulo 257. Every 32-bit number may be passed: one out of range is refused, however large.
 *
 * The caller owes: `job` points to job_len readable bytes and `out` to out_len writable ones, the two do not overlap,
 * and nothing else writes to either during the call. A pointer may be null where its length is 0, and only there.
 */
int32_t jobvault_cut_gf256(uint32_t rows, uint32_t m, uint32_t n, uint32_t number, uint16_t job_number, uint32_t stamp,
                           const uint8_t *job, size_t job_len, uint8_t *out, size_t out_len);

int32_t jobvault_cut_mod257(uint32_t rows, uint32_t m, uint32_t n, uint32_t number, uint16_t job_number, uint32_t stamp,
                            const uint8_t *job, size_t job_len, uint8_t *out, size_t out_len);

/* Bring a job back from m of its pieces over GF(2^8), or over the integers modulo 257.
 *
 * pieces      pieces_len bytes: the pieces, one behind the other in any order; read only. All pieces of a job have the
 *             same length, piece_len; a last part that is shorter counts as a piece. Parts behind the 17th are not
 *             looked at: one of the first 17 is refused then.
 * work        work_len 16-bit numbers of scratch, at least JOBVAULT_WORK; zeros on return, whatever is answered
 * job         job_len bytes; the job is written to its front
 *
 * Any m pieces of one job with different numbers give exactly that job. Answers the job's length, 0 to 4,096, and leaves
 * the bytes of `job` behind it as they were; or answers the first refusal, and leaves all of `job` as it was.
 *
 * m pieces cannot tell a body that was altered within the lawful values: they may then make another job. See
 * docs/COLLECTIONS.md.
 *
 * The caller owes: the pointers are good for their lengths, the three do not overlap, and nothing else writes to them
 * during the call. A pointer may be null where its length is 0, and only there.
 */
int32_t jobvault_join_gf256(const uint8_t *pieces, size_t pieces_len, size_t piece_len, uint16_t *work, size_t work_len,
                            uint8_t *job, size_t job_len);

int32_t jobvault_join_mod257(const uint8_t *pieces, size_t pieces_len, size_t piece_len, uint16_t *work, size_t work_len,
                             uint8_t *job, size_t job_len);

#ifdef __cplusplus
}
#endif

#endif
