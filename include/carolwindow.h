/* Carolwindow: does every job of a camera's table meet its deadline, whatever k transient faults do?
 *
 * A table is a list of words, four for each job in the order R, C, D, V: ready, longest run, deadline, longest recovery, all in
 * slots. Jobs are numbered from 0. A pattern gives each job its count of failures, one word each, in job order.
 *
 *   jobs n 0 to 64     faults k 0 to 8     R 0 to 1,000,000     C 1 to 100,000     D 0 to 10,000,000     V 0 to 100,000
 *
 * Every list is lent as a pointer and its length, counted in words (in bytes for a file). The pointer is not NULL, even for the
 * length 0, and no two lent lists overlap. Nothing is kept after the call, and nothing is allocated.
 *
 * Every ask answers 64 bits. The top byte is 0, and the rest is the value; or the top byte is a refusal's number, and the rest is
 * its place (at most 2^56 - 1). Results fill the first n words of a lent buffer (4 x n for a table read) and leave the others.
 * Under a refusal no lent buffer changes. Of several refusals that apply, the first in the ask's order is given.
 */
#ifndef CAROLWINDOW_H
#define CAROLWINDOW_H

#include <stddef.h>
#include <stdint.h>

/* Room that is always enough. */
#define CAROLWINDOW_MOST_JOBS 64
#define CAROLWINDOW_MOST_FAULTS 8
#define CAROLWINDOW_MOST_WORDS (4 * CAROLWINDOW_MOST_JOBS)           /* of a table */
#define CAROLWINDOW_MOST_BYTES (5 + 20 * CAROLWINDOW_MOST_JOBS)      /* of a file that is written */

/* The refusals: given exactly when, and the place. */
enum carolwindow_refusal {
    CAROLWINDOW_BAD_TABLE_LENGTH = 1,  /* table length not a multiple of 4: the length */
    CAROLWINDOW_TOO_MANY_JOBS = 2,     /* more than 64 jobs: 0 */
    CAROLWINDOW_BAD_FIELD = 3,         /* a field outside its range: index of the first such word */
    CAROLWINDOW_TOO_MANY_FAULTS = 4,   /* k over 8: 0 */
    CAROLWINDOW_SHORT_TIMES = 5,       /* buffer for finishes or delays shorter than n: n */
    CAROLWINDOW_PATTERN_LENGTH = 6,    /* given pattern not of length n, or pattern buffer shorter than n: n */
    CAROLWINDOW_PATTERN_SUM = 7,       /* exact sum of a given pattern over 8: 0 */
    CAROLWINDOW_NO_SUCH_JOB = 8,       /* job number not below n: 0 */
    CAROLWINDOW_LATE_TIME = 9,         /* a time asked of free slots over 10,000,000: 0 */
    CAROLWINDOW_RECORD_CUT_OFF = 20,   /* a record is cut off: its offset */
    CAROLWINDOW_RECORD_LENGTH = 21,    /* its length does not fit: its offset */
    CAROLWINDOW_UNKNOWN_KIND = 22,     /* unknown kind: its offset */
    CAROLWINDOW_HEAD_NOT_FIRST = 23,   /* head not at offset 0: its offset */
    CAROLWINDOW_65TH_JOB = 24,         /* a 65th job: its offset */
    CAROLWINDOW_BAD_VALUE = 25,        /* a value outside its range: its offset */
    CAROLWINDOW_SHORT_TABLE = 26,      /* file good, table buffer short of 4 x n words: file length */
    CAROLWINDOW_SHORT_FILE = 28        /* write buffer shorter than the file: bytes needed */
};

#ifdef __cplusplus
extern "C" {
#endif

/* Schedule: the finishes under a given pattern of exactly n counts that sum to at most 8.
 * Fills finishes. Value 0. Refusals in order: 1, 2, 3, 6, 7, 5. */
uint64_t carolwindow_schedule(const uint32_t *table, size_t table_length,
                              const uint32_t *pattern, size_t pattern_length,
                              uint32_t *finishes, size_t finishes_length);

/* Free slots: how many slots t with a <= t < b are idle in the schedule without faults; zero if a >= b.
 * Value: the count. Refusals in order: 1, 2, 3, 9. */
uint64_t carolwindow_free_slots(const uint32_t *table, size_t table_length, uint32_t a, uint32_t b);

/* Delays: the most extra work, over patterns of at most k faults, just after each job's fault-free finish, in job order.
 * Fills delays. Value 0. Refusals in order: 1, 2, 3, 4, 5. */
uint64_t carolwindow_delays(const uint32_t *table, size_t table_length, uint32_t k,
                            uint32_t *delays, size_t delays_length);

/* Judge: the verdict, the latest finishes and a pattern. The latest finish of a job is its greatest finish over all patterns whose
 * counts sum to at most k; its margin is D minus that. Sound exactly when no margin is negative; a miss names the most urgent job
 * with a negative margin. Fills finishes with the latest finishes, and pattern: on a miss with one that reaches the named job's
 * latest finish, on sound with zeros.
 * Value: 0 for sound, 1 + job for a miss. Refusals in order: 1, 2, 3, 4, 5, 6. */
uint64_t carolwindow_judge(const uint32_t *table, size_t table_length, uint32_t k,
                           uint32_t *finishes, size_t finishes_length,
                           uint32_t *pattern, size_t pattern_length);

/* Pattern of one job: a pattern of at most k faults that reaches that job's latest finish.
 * Fills pattern. Value 0. Refusals in order: 1, 2, 3, 4, 8, 6. */
uint64_t carolwindow_pattern(const uint32_t *table, size_t table_length, uint32_t k, uint32_t job,
                             uint32_t *pattern, size_t pattern_length);

/* Read a file: n and k (2 if the file has no head), with the rows in the table buffer.
 * Fills the first 4 x n words of table. Value: 256 x k + n. Refusals: the first met, record by record from the front, of 20 to 25;
 * then 26. */
uint64_t carolwindow_read(const uint8_t *file, size_t file_length, uint32_t *table, size_t table_length);

/* Write a file: a head with k, then the jobs; bytes after the file stay.
 * Fills the first 5 + 20 x n bytes of file. Value: that length. Refusals in order: 1, 2, 3, 4, 28. */
uint64_t carolwindow_write(const uint32_t *table, size_t table_length, uint32_t k, uint8_t *file, size_t file_length);

#ifdef __cplusplus
}
#endif

/* Taking an answer apart. */

/* The refusal's number; 0 if the ask was not refused. */
static inline unsigned carolwindow_refusal_of(uint64_t answer) { return (unsigned)(answer >> 56); }

/* The place of a refusal. */
static inline uint64_t carolwindow_place_of(uint64_t answer) { return answer & UINT64_C(0x00ffffffffffffff); }

/* The value of an ask that was not refused: a count of free slots, the length of a written file. */
static inline uint64_t carolwindow_value_of(uint64_t answer) { return answer & UINT64_C(0x00ffffffffffffff); }

/* Judge: is the verdict sound? Only a judge that was not refused and found no miss says so. */
static inline int carolwindow_is_sound(uint64_t answer) { return answer == 0; }

/* Judge, on a miss: the named job. */
static inline uint32_t carolwindow_named_job(uint64_t answer) { return (uint32_t)(carolwindow_value_of(answer) - 1); }

/* Read, not refused: the faults k, and the number of jobs n. */
static inline uint32_t carolwindow_k_of(uint64_t answer) { return (uint32_t)(carolwindow_value_of(answer) / 256); }
static inline uint32_t carolwindow_n_of(uint64_t answer) { return (uint32_t)(carolwindow_value_of(answer) % 256); }

/* The margin of a job, from the table and its latest finishes: D minus the latest finish, signed. */
static inline int32_t carolwindow_margin(const uint32_t *table, const uint32_t *finishes, uint32_t job)
{
    return (int32_t)table[4 * job + 2] - (int32_t)finishes[job];
}

#endif
