/* `often N S T B` judges trace B from S to T so many times through the static library, and prints the time of one call. */
#include "nanobot.h"

#include <stdio.h>
#include <stdlib.h>
#include <string.h>
#include <time.h>

struct bytes {
    uint8_t at[1 << 20];
    size_t size;
};

static struct bytes source, target, trace;

/* Reads a file, or nothing for `-`. */
static void get(const char *name, struct bytes *bytes)
{
    if (strcmp(name, "-") == 0)
        return;
    FILE *file = fopen(name, "rb");
    if (file == NULL)
        exit(5);
    bytes->size = fread(bytes->at, 1, sizeof bytes->at, file);
    fclose(file);
}

int main(int words, char **word)
{
    uint8_t line[200];
    size_t size = 0;
    struct timespec start, end;
    if (words != 5)
        return 2;
    long count = atol(word[1]);
    get(word[2], &source);
    get(word[3], &target);
    get(word[4], &trace);
    clock_gettime(CLOCK_MONOTONIC, &start);
    for (long i = 0; i < count; i++)
        if (nanobot_judge(source.at, source.size, target.at, target.size, trace.at, trace.size, false,
                          line, sizeof line, &size) != NANOBOT_DONE)
            return 1;
    clock_gettime(CLOCK_MONOTONIC, &end);
    double seconds = (double)(end.tv_sec - start.tv_sec) + (double)(end.tv_nsec - start.tv_nsec) / 1e9;
    fwrite(line, 1, size, stdout);
    printf("    %ld calls in %.3f s, %.1f microseconds a call\n", count, seconds, seconds * 1e6 / (double)count);
    return 0;
}
