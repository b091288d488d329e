/* Judge a job file: print the verdict, then each job's latest finish and margin, and on a miss the pattern that causes it.
 *
 *   judge_file [FILE]      without FILE: standard input
 *
 * Exit status: 0 sound, 1 miss, 2 refused or not readable. */
#include "carolwindow.h"

#include <stdio.h>

/* Say which refusal it was, and where. */
static int refused(const char *ask, uint64_t answer)
{
    fprintf(stderr, "%s refused: %u at %llu\n", ask, carolwindow_refusal_of(answer),
            (unsigned long long)carolwindow_place_of(answer));
    return 2;
}

/* Fill bytes from the path, or from standard input without one; the length, or -1 if it cannot be read or is longer than room. */
static long load(const char *path, uint8_t *bytes, size_t room)
{
    FILE *in = path ? fopen(path, "rb") : stdin;
    size_t length;
    int bad;

    if (!in)
        return -1;
    length = fread(bytes, 1, room, in);
    bad = ferror(in) || fgetc(in) != EOF;
    if (path)
        fclose(in);
    return bad ? -1 : (long)length;
}

int main(int argc, char **argv)
{
    static uint8_t file[32768];
    uint32_t table[CAROLWINDOW_MOST_WORDS];
    uint32_t finishes[CAROLWINDOW_MOST_JOBS], pattern[CAROLWINDOW_MOST_JOBS];
    uint32_t k, n, job;
    uint64_t read, verdict;
    long length = load(argc > 1 ? argv[1] : NULL, file, sizeof file);

    if (length < 0) {
        fprintf(stderr, "cannot read %s, or it is longer than %zu bytes\n", argc > 1 ? argv[1] : "standard input", sizeof file);
        return 2;
    }

    read = carolwindow_read(file, (size_t)length, table, CAROLWINDOW_MOST_WORDS);
    if (carolwindow_refusal_of(read))
        return refused("read", read);
    k = carolwindow_k_of(read);
    n = carolwindow_n_of(read);

    verdict = carolwindow_judge(table, 4 * n, k, finishes, n, pattern, n);
    if (carolwindow_refusal_of(verdict))
        return refused("judge", verdict);

    if (carolwindow_is_sound(verdict))
        printf("k %u, jobs %u: sound\n", (unsigned)k, (unsigned)n);
    else
        printf("k %u, jobs %u: miss, job %u\n", (unsigned)k, (unsigned)n, (unsigned)carolwindow_named_job(verdict));

    for (job = 0; job < n; job++)
        printf("job %u: latest finish %u, margin %d\n", (unsigned)job, (unsigned)finishes[job],
               (int)carolwindow_margin(table, finishes, job));

    if (carolwindow_is_sound(verdict))
        return 0;
    printf("pattern");
    for (job = 0; job < n; job++)
        printf(" %u", (unsigned)pattern[job]);
    printf("\n");
    return 1;
}
