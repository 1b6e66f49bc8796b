/* What a call of the machine that is kept takes: a start, steps of one bot and of forty, made and judged, an undo, a count of what differs
 * from a target, and copies of an empty matrix and of one that is half full, at the resolution that is given, with so many notes. */
#include "nanobot_machine.h"

#include <stdio.h>
#include <stdlib.h>
#include <time.h>

enum { TIMES = 1000000, BOTS = 40 };

static double now(void)
{
    struct timespec t;
    clock_gettime(CLOCK_MONOTONIC, &t);
    return (double)t.tv_sec + 1e-9 * (double)t.tv_nsec;
}

static void must(uint32_t status)
{
    if (status != NANOBOT_DONE)
        exit((int)status);
}

/* Nanoseconds a step of these commands, by turns. */
static double steps(nanobot_machine *machine, const uint8_t *even, const uint8_t *odd, size_t size)
{
    nanobot_step step;
    double began = now();
    for (int i = 0; i < TIMES; i++)
        must(nanobot_machine_step(machine, i % 2 ? odd : even, size, &step));
    return 1e9 * (now() - began) / TIMES;
}

/* Nanoseconds a judgement of these commands. */
static double judgements(nanobot_machine *machine, const uint8_t *commands, size_t size)
{
    nanobot_judged judged;
    double began = now();
    for (int i = 0; i < TIMES; i++)
        must(nanobot_machine_judge(machine, commands, size, &judged));
    return 1e9 * (now() - began) / TIMES;
}

/* Milliseconds a copy, of ten. */
static double copies(nanobot_machine *machine)
{
    nanobot_machine copy = {0};
    double began = now();
    for (int i = 0; i < 10; i++)
        must(nanobot_machine_copy(machine, &copy));
    nanobot_machine_end(&copy);
    return 1e2 * (now() - began);
}

/* Milliseconds to count what differs from a target, of ten times; reading the target is a part of it. */
static double differences(nanobot_machine *machine, uint32_t resolution)
{
    size_t room = (size_t)nanobot_model_room(resolution), size;
    uint8_t *target = malloc(room);
    nanobot_refusal refusal;
    uint32_t count;
    double began;
    if (target == NULL || nanobot_machine_model(machine, target, room, &size) != NANOBOT_DONE)
        exit(NANOBOT_MEMORY);
    began = now();
    for (int i = 0; i < 10; i++)
        must(nanobot_machine_differences(machine, target, size, &count, &refusal));
    began = now() - began;
    must(nanobot_machine_aim(machine, target, size, &count, &refusal));
    free(target);
    return 1e2 * began;
}

/* Nanoseconds to ask how many voxels differ from a target that was set, of a million times. */
static double remaining(nanobot_machine *machine)
{
    uint32_t count;
    double began = now();
    for (int i = 0; i < 1000000; i++)
        must(nanobot_machine_remaining(machine, &count));
    return 1e3 * (now() - began);
}

/* A machine over a model whose lower half is full but for its border. */
static void start_half(nanobot_machine *machine, uint32_t r)
{
    uint8_t *model = calloc((size_t)nanobot_model_room(r), 1);
    nanobot_refusal refusal;
    if (model == NULL)
        exit(NANOBOT_MEMORY);
    model[0] = (uint8_t)r;
    for (uint32_t x = 1; x + 1 < r; x++)
        for (uint32_t y = 0; y < r / 2; y++)
            for (uint32_t z = 1; z + 1 < r; z++) {
                uint32_t place = (x * r + y) * r + z;
                model[1 + place / 8] |= (uint8_t)(1 << place % 8);
            }
    must(nanobot_machine_start(model, (size_t)nanobot_model_room(r), false, 0, machine, &refusal));
    free(model);
}

/* Forty bots in a row: the last one splits, and the others wait. */
static void split(nanobot_machine *machine)
{
    uint8_t commands[BOTS + 1];
    nanobot_step step;
    for (int bots = 1; bots < BOTS; bots++) {
        for (int i = 0; i < bots - 1; i++)
            commands[i] = 0xfe;
        commands[bots - 1] = 0xb5; /* Fission <1,0,0> */
        commands[bots] = (uint8_t)(BOTS - 1 - bots);
        must(nanobot_machine_step(machine, commands, (size_t)bots + 1, &step));
    }
}

int main(int count, char **words)
{
    static const uint8_t there[] = {0x34, 0x10}, back[] = {0x34, 0x0e}, fill[] = {0x73}, none[] = {0x72}, wait[] = {0xfe};
    uint8_t waits[BOTS];
    nanobot_machine machine = {0}, half = {0};
    uint32_t resolution = count > 1 ? (uint32_t)atoi(words[1]) : 20, notes = count > 2 ? (uint32_t)atoi(words[2]) : 0;
    double began = now(), undo;
    int undone = 0;
    for (int i = 0; i < BOTS; i++)
        waits[i] = 0xfe;
    must(nanobot_machine_start_empty(resolution, false, notes, &machine));
    printf("resolution %u, notes %u: start %.2f ms", resolution, notes, 1e3 * (now() - began));
    printf(", wait %.0f ns", steps(&machine, wait, wait, 1));
    printf(", move %.0f ns", steps(&machine, there, back, 2));
    printf(", fill and void %.0f ns", steps(&machine, fill, none, 1));
    began = now();
    while (nanobot_machine_undo(&machine) == NANOBOT_DONE)
        undone++;
    undo = 1e9 * (now() - began) / (undone > 0 ? undone : 1);
    if (undone > 0)
        printf(", undo %.0f ns", undo);
    printf(", judge a move %.0f ns, a fill %.0f ns", judgements(&machine, there, 2), judgements(&machine, fill, 1));
    start_half(&half, resolution);
    printf(", count differences %.3f ms", differences(&half, resolution));
    printf(", those kept %.0f ns", remaining(&half));
    printf(", copy %.2f ms, half full %.2f ms", copies(&machine), copies(&half));
    if (resolution >= BOTS) {
        split(&machine);
        printf(", forty that wait %.0f ns", steps(&machine, waits, waits, BOTS));
    }
    putchar('\n');
    nanobot_machine_end(&half);
    nanobot_machine_end(&machine);
    return 0;
}
