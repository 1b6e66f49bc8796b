/* A machine that persists between steps, from C: `machine run [light] S T B` prints the line of `nanobot run`, step by step. Each step
 * is made, undone, and made again, and half way the machine continues as a copy; another machine plays the trace by one call. For a bad
 * or cut trace it prints only the byte, and for a refused model a number. Exits with the program's status. */
#include "nanobot_machine.h"

#include <inttypes.h>
#include <stdio.h>
#include <stdlib.h>
#include <string.h>

enum { NO_FILE = 5, NOTES = 4, MOST_BOTS = 40 };

struct bytes {
    uint8_t *at; /* never null */
    size_t size;
};

/* Returns the bytes of a file, or none for `-`. */
static struct bytes bytes_of(const char *name)
{
    struct bytes bytes = {malloc(1), 0};
    FILE *file;
    if (strcmp(name, "-") == 0)
        return bytes;
    file = fopen(name, "rb");
    if (file == NULL)
        exit(NO_FILE);
    for (int byte; (byte = getc(file)) != EOF; bytes.at[bytes.size++] = (uint8_t)byte)
        if ((bytes.at = realloc(bytes.at, bytes.size + 2)) == NULL)
            exit(NANOBOT_MEMORY);
    fclose(file);
    return bytes;
}

/* Returns the size in bytes of a command with this first byte; 1 if it begins none, for which the machine refuses the step. */
static size_t length_of(uint8_t first)
{
    size_t size = nanobot_command_size(first);
    return size > 0 ? size : 1;
}

static uint32_t tell_broken(nanobot_broken b)
{
    printf("broken %u %s step %u bid %u at %u %u %u\n", b.rule, nanobot_rule_name(b.rule), b.step, b.bid, b.x, b.y, b.z);
    return NANOBOT_BROKEN;
}

static uint32_t start(nanobot_machine *machine, struct bytes source, struct bytes target, bool light)
{
    nanobot_refusal refusal;
    uint32_t resolution = target.size > 2 && target.at[0] == 0xff ? target.at[1] * 256u + target.at[2] : target.at[0], status;
    if (source.size == 0 && target.size != 0)
        return nanobot_machine_start_empty(resolution, light, NOTES, machine);
    status = nanobot_machine_start(source.at, source.size, light, NOTES, machine, &refusal);
    if (status == NANOBOT_MODEL)
        printf("refusal %u\n", refusal.number);
    return status;
}

/* Makes a step, undoes it, and makes it again. */
static uint32_t step_twice(nanobot_machine *machine, const uint8_t *commands, size_t size, nanobot_step *step)
{
    nanobot_state before, after;
    uint32_t status;
    nanobot_machine_tell(machine, &before);
    status = nanobot_machine_step(machine, commands, size, step);
    if (status != NANOBOT_DONE)
        return status;
    nanobot_machine_undo(machine);
    nanobot_machine_tell(machine, &after);
    if (before.energy != after.energy || before.steps != after.steps || before.active != after.active || before.high != after.high)
        abort();
    return nanobot_machine_step(machine, commands, size, step);
}

/* Prints the broken rule if the trace ends before the bot of this index has a command. */
static uint32_t trace_ends(nanobot_machine *machine, uint32_t steps, size_t number)
{
    nanobot_bot bots[MOST_BOTS];
    size_t count;
    nanobot_machine_bots(machine, bots, MOST_BOTS, &count);
    nanobot_broken b = {1, steps + 1, bots[number].bid, bots[number].x, bots[number].y, bots[number].z};
    return tell_broken(b);
}

/* Returns the bytes of the empty model of a resolution. */
static struct bytes empty_model(uint32_t resolution)
{
    size_t room = (size_t)nanobot_model_room(resolution);
    struct bytes model = {malloc(room), 0};
    nanobot_machine empty = {0};
    if (model.at == NULL || nanobot_machine_start_empty(resolution, false, 0, &empty) != NANOBOT_DONE)
        exit(NANOBOT_MEMORY);
    nanobot_machine_model(&empty, model.at, room, &model.size);
    nanobot_machine_end(&empty);
    return model;
}

/* Compares the matrix with the target, and prints the line at the end. */
static uint32_t compare(nanobot_machine *machine, struct bytes target, nanobot_state state)
{
    nanobot_place place;
    nanobot_refusal refusal;
    uint32_t status = nanobot_machine_compare(machine, target.at, target.size, &place, &refusal);
    if (status == NANOBOT_DIFFERS) {
        nanobot_broken wrong = {14, state.steps, 0, place.x, place.y, place.z};
        return tell_broken(wrong);
    }
    if (status == NANOBOT_DONE)
        printf("ok energy %" PRId64 " steps %u\n", state.energy, state.steps);
    return status;
}

/* Prints the line at the end, with this many bytes of commands left. */
static uint32_t finish(nanobot_machine *machine, struct bytes target, size_t left, nanobot_state state)
{
    nanobot_broken after = {13, state.steps, 0, 0, 0, 0};
    struct bytes empty;
    uint32_t status;
    if (left > 0)
        return tell_broken(after);
    if (target.size > 0)
        return compare(machine, target, state);
    empty = empty_model(state.resolution);
    status = compare(machine, empty, state);
    free(empty.at);
    return status;
}

static uint32_t run(nanobot_machine *machine, struct bytes target, struct bytes trace)
{
    nanobot_machine copy = {0};
    nanobot_state state;
    nanobot_step step;
    for (size_t at = 0, next = 0;; at = next) {
        uint32_t given = 0, status;
        nanobot_machine_tell(machine, &state);
        if (state.active == 0)
            return finish(machine, target, trace.size - at, state);
        for (; given < state.active && next < trace.size; given++)
            next += length_of(trace.at[next]);
        if (given < state.active)
            return trace_ends(machine, state.steps, given);
        status = step_twice(machine, trace.at + at, (next < trace.size ? next : trace.size) - at, &step);
        if (status == NANOBOT_BROKEN)
            return tell_broken(step.broken);
        if (status == NANOBOT_TRACE)
            printf("trace bad or cut at %zu\n", at + (size_t)step.offset);
        if (status != NANOBOT_DONE)
            return status;
        if (at < trace.size / 2 && next >= trace.size / 2) {
            if (nanobot_machine_copy(machine, &copy) != NANOBOT_DONE)
                return NANOBOT_MEMORY;
            nanobot_machine_end(machine);
            *machine = copy;
            copy.at = NULL;
        }
    }
}

/* Plays the trace on another machine, which must reach the state of this one. */
static void play(nanobot_machine *machine, struct bytes source, struct bytes target, struct bytes trace, bool light)
{
    nanobot_machine other = {0};
    nanobot_state state;
    nanobot_played played;
    nanobot_machine_tell(machine, &state);
    if (start(&other, source, target, light) != NANOBOT_DONE)
        exit(NANOBOT_MEMORY);
    nanobot_machine_play(&other, trace.at, trace.size, UINT32_MAX, &played);
    if (played.energy != state.energy || played.steps != state.steps || played.active != state.active || played.high != state.high)
        abort();
    nanobot_machine_end(&other);
}

int main(int count, char **words)
{
    bool light = count == 6 && strcmp(words[2], "light") == 0;
    nanobot_machine machine = {0};
    uint32_t status;
    if (count != 5 + light || strcmp(words[1], "run") != 0)
        return NANOBOT_WORDS;
    struct bytes source = bytes_of(words[2 + light]), target = bytes_of(words[3 + light]), trace = bytes_of(words[4 + light]);
    status = start(&machine, source, target, light);
    if (status == NANOBOT_DONE) {
        status = run(&machine, target, trace);
        play(&machine, source, target, trace, light);
    }
    nanobot_machine_end(&machine);
    free(source.at);
    free(target.at);
    free(trace.at);
    return (int)status;
}
