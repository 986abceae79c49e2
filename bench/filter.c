/* The least and the middle time in nanoseconds of counting the 32-bit numbers of a file that are at least LOW and less
 * than HIGH, once they are in memory: filter FILE COUNT LOW HIGH TIMES. It prints the count, and both times. */
#define _POSIX_C_SOURCE 199309L
#include <stdint.h>
#include <stdio.h>
#include <stdlib.h>
#include <time.h>

static int later(const void *a, const void *b)
{
    int64_t x = *(const int64_t *)a, y = *(const int64_t *)b;
    return (x > y) - (x < y);
}

static int64_t now(void)
{
    struct timespec t;
    clock_gettime(CLOCK_MONOTONIC, &t);
    return t.tv_sec * INT64_C(1000000000) + t.tv_nsec;
}

/* apart from `main`, so that each call is done */
__attribute__((noinline)) static uint32_t count(const uint32_t *numbers, size_t n, uint32_t low, uint32_t high)
{
    uint32_t found = 0;
    for (size_t i = 0; i < n; i++)
        found += (numbers[i] >= low) & (numbers[i] < high);
    return found;
}

int main(int argc, char **argv)
{
    if (argc != 6)
        return 1;
    size_t n = strtoul(argv[2], NULL, 10);
    uint32_t low = strtoul(argv[3], NULL, 10), high = strtoul(argv[4], NULL, 10);
    int times = atoi(argv[5]);
    uint32_t *numbers = malloc(n * sizeof *numbers), found = 0;
    int64_t *taken = malloc(times * sizeof *taken);
    FILE *file = fopen(argv[1], "rb");
    if (!numbers || !taken || !file || times < 1 || fread(numbers, sizeof *numbers, n, file) != n)
        return 1;
    for (int k = 0; k < times; k++) {
        int64_t start = now();
        found = count(numbers, n, low, high);
        taken[k] = now() - start;
    }
    qsort(taken, times, sizeof *taken, later);
    printf("%u %lld %lld\n", found, (long long)taken[0], (long long)taken[times / 2]);
    return 0;
}
