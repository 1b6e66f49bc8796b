/* Fails the allocations of a machine, one after another: each call that runs out of memory leaves the machine unchanged, and succeeds
 * when it is made again. Link with -Wl,--wrap=malloc,--wrap=realloc. Prints the number of failed allocations. */
#include "nanobot_machine.h"

#include <stdio.h>
#include <stdlib.h>
#include <string.h>

enum { RESOLUTION = 8, NOTES = 4, STEPS = 7 };

/* The number of successful allocations before one fails, or -1 for all. */
static long left = -1;
static long refused;

void *__real_malloc(size_t size);
void *__real_realloc(void *at, size_t size);

static int refuses(void)
{
    if (left < 0 || left-- > 0)
        return 0;
    refused++;
    return 1;
}

void *__wrap_malloc(size_t size) { return refuses() ? NULL : __real_malloc(size); }

void *__wrap_realloc(void *at, size_t size) { return refuses() ? NULL : __real_realloc(at, size); }

static void must(int holds, const char *what)
{
    if (holds)
        return;
    printf("%s, after %ld refusals\n", what, refused);
    exit(1);
}

/* The visible state of a machine that needs no allocation. */
struct seen {
    nanobot_state state;
    uint32_t full;
};

static struct seen see(nanobot_machine *machine)
{
    struct seen seen;
    memset(&seen, 0, sizeof seen);
    must(nanobot_machine_tell(machine, &seen.state) == NANOBOT_DONE, "tell");
    must(nanobot_machine_count(machine, &seen.full) == NANOBOT_DONE, "count");
    return seen;
}

static int same(struct seen a, struct seen b) { return memcmp(&a, &b, sizeof a) == 0; }

static uint32_t step(nanobot_machine *machine, const uint8_t *commands, size_t size, nanobot_step *told)
{
    struct seen before = see(machine);
    uint32_t status = nanobot_machine_step(machine, commands, size, told);
    if (status != NANOBOT_DONE)
        must(same(before, see(machine)), "a refused step changed the machine");
    return status == NANOBOT_MEMORY ? nanobot_machine_step(machine, commands, size, told) : status;
}

/* An undo succeeds without memory. */
static uint32_t undo(nanobot_machine *machine)
{
    struct seen before = see(machine);
    uint32_t status = nanobot_machine_undo(machine);
    must(status != NANOBOT_MEMORY, "an undo was refused memory");
    if (status != NANOBOT_DONE)
        must(same(before, see(machine)), "a refused undo changed the machine");
    return status;
}

/* A judged step leaves the machine unchanged, whatever the result. */
static uint32_t judge(nanobot_machine *machine, const uint8_t *commands, size_t size)
{
    struct seen before = see(machine);
    nanobot_judged told;
    uint32_t status = nanobot_machine_judge(machine, commands, size, &told);
    must(same(before, see(machine)), "a judgement changed the machine");
    return status == NANOBOT_MEMORY ? judge(machine, commands, size) : status;
}

/* A trace of one step, played: if it runs out of memory, no step is made. */
static void play(nanobot_machine *machine, const uint8_t *trace, size_t size)
{
    struct seen before = see(machine);
    nanobot_played played;
    uint32_t status;
    while ((status = nanobot_machine_play(machine, trace, size, UINT32_MAX, &played)) == NANOBOT_MEMORY)
        must(played.made == 0 && same(before, see(machine)), "a refused play changed the machine");
    must(status == NANOBOT_DONE && played.made == 1 && played.used == size, "a trace of one step");
}

/* Moves, fills, and a fill of a voxel that floats, each judged and then made, with a trace; then copies, levels, undo, and the model. */
static void try_once(nanobot_machine *machine, nanobot_machine *copy)
{
    static const uint8_t moves[] = {0x14, 0x10}, fills[] = {0x73}, floats[] = {0x83};
    static const uint8_t *const commands[STEPS] = {moves, fills, fills, moves, floats, moves, fills};
    static const size_t sizes[STEPS] = {2, 1, 1, 2, 1, 2, 1};
    nanobot_step told;
    uint8_t model[65];
    size_t size;
    uint32_t level = 7, status;
    while (nanobot_machine_start_empty(RESOLUTION, false, NOTES, machine) == NANOBOT_MEMORY)
        must(machine->at == NULL, "a refused start");
    must(nanobot_machine_keep(machine) == NANOBOT_DONE, "a trace");
    for (int i = 0; i < STEPS; i++) {
        must(judge(machine, commands[i], sizes[i]) == (i == 4 ? NANOBOT_BROKEN : NANOBOT_DONE), "a judgement");
        must(step(machine, commands[i], sizes[i], &told) == (i == 4 ? NANOBOT_BROKEN : NANOBOT_DONE), "a step");
    }
    while ((status = nanobot_machine_trace(machine, model, sizeof model, &size)) == NANOBOT_MEMORY)
        continue;
    must(status == NANOBOT_DONE && size == 9, "a trace of nine bytes");
    while ((status = nanobot_machine_level(machine, 1, 0, 1, &level)) == NANOBOT_MEMORY)
        must(level == 7, "a refused level");
    must(status == NANOBOT_DONE && level == 0, "a level");
    while (nanobot_machine_copy(machine, copy) == NANOBOT_MEMORY)
        must(copy->at == NULL, "a refused copy");
    play(copy, moves, sizeof moves);
    for (int i = 0; i < NOTES; i++)
        must(undo(machine) == NANOBOT_DONE, "an undo");
    must(undo(machine) == NANOBOT_NO_NOTE, "an undo past the notes");
    while ((status = nanobot_machine_model(machine, model, sizeof model, &size)) == NANOBOT_MEMORY)
        continue;
    must(status == NANOBOT_DONE && size == sizeof model, "a model");
}

int main(void)
{
    for (long number = 0, before = -1; before < refused; number++) {
        nanobot_machine machine = {0}, copy = {0};
        before = refused;
        left = number;
        try_once(&machine, &copy);
        left = -1;
        nanobot_machine_end(&machine);
        nanobot_machine_end(&copy);
    }
    printf("%ld allocations were refused\n", refused);
    return 0;
}
