/* Times the zone's code, and glibc's mktime and localtime_r, on the same local times.
 *
 * usage: bench FILE NAME LOCALS WHAT BATCHES
 *
 * FILE is a compiled zone file and NAME its name below the zone folder; LOCALS holds local seconds (as if they were UTC), one to a line. WHAT is
 * ours or glibc. It writes two lines, "second NS SUM" and "offset NS SUM": nanoseconds of processor time for one call in the best of BATCHES
 * batches, and a sum of the answers by which they can be compared. */
#define _GNU_SOURCE
#include <stdint.h>
#include <stdio.h>
#include <stdlib.h>
#include <string.h>
#include <time.h>

/* the zone's code: a slice is a pointer and a length */
void bench_zone_seconds(const uint8_t *file, size_t len, uint64_t *xs, size_t n);
void bench_zone_offsets(const uint8_t *file, size_t len, uint64_t *us, size_t n);

enum { MOST = 1 << 20 };
static uint8_t file[65536];
static int64_t locals[MOST], seconds[MOST], offsets[MOST];
static uint64_t work[MOST];
static struct tm broken[MOST];

/* from 1970 to the code's count from -10400, and what it adds to offsets and local seconds */
static const int64_t first = 390359520000, east = 93600;

static double now(void) {
    struct timespec t;
    clock_gettime(CLOCK_THREAD_CPUTIME_ID, &t);
    return t.tv_sec * 1e9 + t.tv_nsec;
}

static void ours_seconds(size_t len, size_t n, double *spent) {
    for (size_t i = 0; i < n; i++) work[i] = (uint64_t)(locals[i] + first + east);
    double t = now();
    bench_zone_seconds(file, len, work, n);
    *spent = now() - t;
    for (size_t i = 0; i < n; i++) seconds[i] = (int64_t)work[i] - first;
}

static void ours_offsets(size_t len, size_t n, double *spent) {
    for (size_t i = 0; i < n; i++) work[i] = (uint64_t)(seconds[i] + first);
    double t = now();
    bench_zone_offsets(file, len, work, n);
    *spent = now() - t;
    for (size_t i = 0; i < n; i++) offsets[i] = (int64_t)work[i] - east;
}

/* The fields of each local time. mktime is asked with tm_isdst -1: in a repeated or skipped hour its answer is its own choice, so those hours
 * are left out of the times that are given. */
static void glibc_fields(size_t n) {
    for (size_t i = 0; i < n; i++) {
        time_t t = locals[i];
        gmtime_r(&t, &broken[i]);
        broken[i].tm_isdst = -1;
    }
}

static void glibc_seconds(size_t n, double *spent) {
    glibc_fields(n);
    double t = now();
    for (size_t i = 0; i < n; i++) seconds[i] = mktime(&broken[i]);
    *spent = now() - t;
}

static void glibc_offsets(size_t n, double *spent) {
    double t = now();
    for (size_t i = 0; i < n; i++) {
        struct tm b;
        time_t u = seconds[i];
        localtime_r(&u, &b);
        offsets[i] = b.tm_gmtoff;
    }
    *spent = now() - t;
}

static int64_t sum(const int64_t *a, size_t n) {
    int64_t s = 0;
    for (size_t i = 0; i < n; i++) s = (s * 31 + a[i]) % 1000000007;
    return s;
}

int main(int argc, char **argv) {
    if (argc != 6) return 2;
    FILE *f = fopen(argv[1], "rb");
    if (!f) return 1;
    size_t len = fread(file, 1, sizeof file, f);
    fclose(f);
    size_t n = 0;
    long long x;
    f = fopen(argv[3], "r");
    if (!f) return 1;
    while (n < MOST && fscanf(f, "%lld", &x) == 1) locals[n++] = x;
    fclose(f);
    int ours = strcmp(argv[4], "ours") == 0, batches = atoi(argv[5]);
    setenv("TZ", argv[2], 1);
    tzset();
    double least_s = 1e300, least_o = 1e300, t;
    for (int b = 0; b < batches; b++) {
        if (ours) ours_seconds(len, n, &t); else glibc_seconds(n, &t);
        if (t < least_s) least_s = t;
        if (ours) ours_offsets(len, n, &t); else glibc_offsets(n, &t);
        if (t < least_o) least_o = t;
    }
    printf("second %.1f %lld\n", least_s / n, (long long)sum(seconds, n));
    printf("offset %.1f %lld\n", least_o / n, (long long)sum(offsets, n));
    return 0;
}
