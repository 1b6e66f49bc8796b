/* nanobot from C, each call of the library once. `linked run S T B`, `linked run light S T B` and `linked check M` print the
 * program's line; `linked cost S T B` prints the line of an accepted run from its numbers; `linked plan KIND S T B` stores the
 * program's file and prints its line without the number of commands. Each exits with the program's status. */
#include "nanobot.h"

#include <inttypes.h>
#include <stdio.h>
#include <stdlib.h>
#include <string.h>

enum { NO_FILE = 5, LINE = 200, PLAN = 1 << 20 };

struct bytes {
    uint8_t *at; /* never null */
    size_t size;
};

static void *room(size_t size)
{
    void *at = malloc(size);
    if (at == NULL)
        exit(NANOBOT_MEMORY);
    return at;
}

/* Returns the bytes of a file, or none for `-`. */
static struct bytes bytes_of(const char *name)
{
    FILE *file = strcmp(name, "-") == 0 ? NULL : fopen(name, "rb");
    struct bytes bytes = {room(1), 0};
    if (strcmp(name, "-") == 0)
        return bytes;
    if (file == NULL || fseek(file, 0, SEEK_END) != 0)
        exit(NO_FILE);
    long size = ftell(file);
    if (size < 0)
        exit(NO_FILE);
    rewind(file);
    free(bytes.at);
    bytes.at = room((size_t)size + 1);
    bytes.size = fread(bytes.at, 1, (size_t)size, file);
    fclose(file);
    return bytes;
}

static void store(const char *name, const uint8_t *bytes, size_t size)
{
    FILE *file = fopen(name, "wb");
    if (file == NULL || fwrite(bytes, 1, size, file) != size || fclose(file) != 0)
        exit(NO_FILE);
}

static uint32_t check(const char *name)
{
    struct bytes model = bytes_of(name);
    uint8_t line[LINE];
    size_t size;
    uint32_t status = nanobot_check(model.at, model.size, line, sizeof line, &size);
    fwrite(line, 1, size, stdout);
    free(model.at);
    return status;
}

/* Names are those of the source, the target and the trace. */
static uint32_t run(char **names, bool light, bool is_cost)
{
    struct bytes source = bytes_of(names[0]), target = bytes_of(names[1]), trace = bytes_of(names[2]);
    uint8_t line[LINE];
    size_t size;
    int64_t energy;
    uint32_t steps, status;
    if (is_cost) {
        status = nanobot_cost(source.at, source.size, target.at, target.size, trace.at, trace.size, light, &energy, &steps);
        if (status == NANOBOT_DONE)
            printf("ok energy %" PRId64 " steps %" PRIu32 "\n", energy, steps);
    } else {
        status = nanobot_judge(source.at, source.size, target.at, target.size, trace.at, trace.size, light,
                               line, sizeof line, &size);
        fwrite(line, 1, size, stdout);
    }
    free(source.at);
    free(target.at);
    free(trace.at);
    return status;
}

/* Plans of this kind with a buffer of this room; the others take two models. */
static uint32_t plan_into(const char *kind, struct bytes source, struct bytes target, uint8_t *at, size_t most, size_t *size)
{
    if (strcmp(kind, "layer") == 0)
        return nanobot_plan_layer(source.at, source.size, target.at, target.size, at, most, size);
    if (strcmp(kind, "group") == 0)
        return nanobot_plan_group(source.at, source.size, target.at, target.size, at, most, size);
    if (strcmp(kind, "crew") == 0)
        return nanobot_plan_crew(source.at, source.size, target.at, target.size, at, most, size);
    if (strcmp(kind, "void") == 0)
        return nanobot_plan_void(source.at, source.size, at, most, size);
    if (strcmp(kind, "low") == 0)
        return nanobot_plan_low(target.at, target.size, at, most, size);
    return nanobot_plan_swarm(target.at, target.size, at, most, size);
}

/* Names are those of the source, the target and the trace to store. */
static uint32_t plan(const char *kind, char **names)
{
    struct bytes source = bytes_of(names[0]), target = bytes_of(names[1]);
    size_t most = PLAN, size;
    uint8_t *at = room(most);
    uint32_t status = plan_into(kind, source, target, at, most, &size);
    if (status == NANOBOT_TOO_SMALL) {
        free(at);
        most = size;
        at = room(most);
        status = plan_into(kind, source, target, at, most, &size);
    }
    if (status == NANOBOT_DONE) {
        int64_t energy;
        uint32_t steps;
        store(names[2], at, size);
        nanobot_cost(source.at, source.size, target.at, target.size, at, size, false, &energy, &steps);
        printf("plan energy %" PRId64 " steps %" PRIu32 " bytes %zu\n", energy, steps, size);
    } else {
        fwrite(at, 1, size, stdout);
    }
    free(at);
    free(source.at);
    free(target.at);
    return status;
}

int main(int count, char **words)
{
    bool light = count == 6 && strcmp(words[2], "light") == 0;
    char **names = words + count - 3;
    if (count == 3 && strcmp(words[1], "check") == 0)
        return (int)check(words[2]);
    if ((count == 5 || light) && strcmp(words[1], "run") == 0)
        return (int)run(names, light, false);
    if ((count == 5 || light) && strcmp(words[1], "cost") == 0)
        return (int)run(names, light, true);
    if (count == 6 && strcmp(words[1], "plan") == 0)
        return (int)plan(words[2], names);
    fputs("linked run [light] S T B, linked cost [light] S T B, linked check M or linked plan KIND S T B\n", stderr);
    return NANOBOT_WORDS;
}
