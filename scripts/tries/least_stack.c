/* For scripts/try linked: measures the least stack of each call of the library, and compares it with the headers' figures.
 *
 *     least_stack MODEL CALL START OTHER
 *
 * The figures are in KB: CALL of nanobot.h, START and OTHER of nanobot_machine.h. Each call runs in a thread whose stack ends
 * at an unmapped megabyte, in a child process that a stack too small ends with a signal. Prints the least stack of each call
 * in steps of 4 KB, the thread's own part included, and ends with 1 if a figure is less. */
#define _GNU_SOURCE
#include <pthread.h>
#include <stdio.h>
#include <stdlib.h>
#include <sys/mman.h>
#include <sys/wait.h>
#include <unistd.h>
#include "nanobot_machine.h"

enum { CALL, START, OTHER, GROUPS };
enum { ROOM = 1 << 24, GUARD = 1 << 20, LEAST = 16, MOST = 1024 };
#define NONE NANOBOT_NONE, 0

static uint8_t *model, *trace, *room;
static size_t model_size, trace_size, size;
static uint32_t resolution;
static nanobot_machine machine;
static nanobot_refusal refusal;
static nanobot_step made;

/* ---- nanobot.h: each both ways, and with bytes that are refused */
static void judge(void)
{
    nanobot_judge(NONE, model, model_size, trace, trace_size, false, room, ROOM, &size);
    nanobot_judge(NONE, model, model_size, trace, trace_size, true, room, ROOM, &size);
    nanobot_judge(model, model_size, NONE, model, model_size, false, room, ROOM, &size);
}
static void cost(void)
{
    int64_t energy;
    uint32_t steps;
    nanobot_cost(NONE, model, model_size, trace, trace_size, false, &energy, &steps);
}
static void check(void)
{
    nanobot_check(model, model_size, room, ROOM, &size);
    nanobot_check(trace, trace_size, room, ROOM, &size);
}
#define BOTH_WAYS(plan) \
    static void plan(void) \
    { \
        nanobot_plan_##plan(NONE, model, model_size, room, ROOM, &size); \
        nanobot_plan_##plan(model, model_size, NONE, room, ROOM, &size); \
        nanobot_plan_##plan(trace, trace_size, NONE, room, ROOM, &size); \
    }
BOTH_WAYS(layer)
BOTH_WAYS(group)
BOTH_WAYS(crew)
static void take_down(void) { nanobot_plan_void(model, model_size, room, ROOM, &size); }
static void low(void) { nanobot_plan_low(model, model_size, room, ROOM, &size); }
static void swarm(void) { nanobot_plan_swarm(model, model_size, room, ROOM, &size); }
static void dis(void)
{
    nanobot_dis(trace, trace_size, room, ROOM, &size);
    nanobot_dis(model, model_size, room, ROOM, &size);
}
static void assemble(void)
{
    static const uint8_t text[] = "GFill <0,1,0> <30,30,30>\nFission <0,0,1> 3\nLMove <1,0,0> <0,0,5>\nHalt\nHold\n";
    nanobot_asm(text, sizeof text - 6, room, ROOM, &size);
    nanobot_asm(text, sizeof text - 1, room, ROOM, &size);
}

/* ---- nanobot_machine.h: a machine at the first step of the trace */
static void start(void) { nanobot_machine_start(model, model_size, false, 100, &machine, &refusal); }
static void start_empty(void) { nanobot_machine_start_empty(resolution, false, 100, &machine); }
static void copy(void)
{
    nanobot_machine other = {0};
    nanobot_machine_copy(&machine, &other);
}

static size_t length(const uint8_t *command)
{
    uint8_t kind = *command & 7;
    return *command >= 0xfd ? 1 : kind == 4 || kind == 5 ? 2 : kind <= 1 ? 4 : 1;
}

/* Makes all steps of the trace, and does this before each and after it. */
static void walk(void before(const uint8_t *, size_t), void after(const uint8_t *, size_t))
{
    nanobot_state state;
    uint8_t *at = trace;
    for (nanobot_machine_tell(&machine, &state); state.active; nanobot_machine_tell(&machine, &state)) {
        uint8_t *end = at;
        for (uint32_t bot = 0; bot < state.active; bot++) end += length(end);
        if (before) before(at, (size_t)(end - at));
        if (nanobot_machine_step(&machine, at, (size_t)(end - at), &made)) exit(2);
        if (after) after(at, (size_t)(end - at));
        at = end;
    }
}
static void judge_one(const uint8_t *at, size_t n)
{
    nanobot_judged judged;
    nanobot_machine_judge(&machine, at, n, &judged);
}
static void undo_one(const uint8_t *at, size_t n)
{
    nanobot_machine_undo(&machine);
    nanobot_machine_step(&machine, at, n, &made);
}
static void level_one(const uint8_t *at, size_t n)
{
    uint32_t level;
    (void)at, (void)n;
    for (uint32_t y = 0; y < resolution; y++) nanobot_machine_level(&machine, 5, y, 5, &level);
}
static void step(void) { walk(0, 0); }
static void play(void)
{
    nanobot_played played;
    nanobot_machine_play(&machine, trace, trace_size, UINT32_MAX, &played);
}
static void judge_steps(void) { walk(judge_one, 0); }
static void undo(void) { walk(0, undo_one); }
static void level(void) { walk(0, level_one); }
static void tell(void)
{
    nanobot_state state;
    nanobot_machine_tell(&machine, &state);
}
static void bots(void)
{
    nanobot_bot all[40];
    nanobot_machine_bots(&machine, all, 40, &size);
}
static uint32_t number;
static nanobot_place place;
static void full(void) { nanobot_machine_full(&machine, 1, 1, 1, &number); }
static void count(void) { nanobot_machine_count(&machine, &number); }
static void matrix(void) { nanobot_machine_model(&machine, room, ROOM, &size); }
static void compare(void) { nanobot_machine_compare(&machine, model, model_size, &place, &refusal); }
static void differences(void) { nanobot_machine_differences(&machine, model, model_size, &number, &refusal); }
static void aim(void) { nanobot_machine_aim(&machine, model, model_size, &number, &refusal); }
static void remaining(void) { nanobot_machine_remaining(&machine, &number); }
static void keep(void) { nanobot_machine_keep(&machine); }
static void kept(void) { nanobot_machine_trace(&machine, room, ROOM, &size); }
static void end(void) { nanobot_machine_end(&machine); }
static void commands(void)
{
    uint64_t counted, offset;
    nanobot_commands(trace, trace_size, &counted, &offset);
}
static void version(void) { nanobot_version(); }

static const struct {
    const char *name;
    void (*call)(void);
    int group;
} calls[] = {
    {"nanobot_judge", judge, CALL}, {"nanobot_cost", cost, CALL}, {"nanobot_check", check, CALL},
    {"nanobot_plan_layer", layer, CALL}, {"nanobot_plan_group", group, CALL}, {"nanobot_plan_crew", crew, CALL},
    {"nanobot_plan_void", take_down, CALL}, {"nanobot_plan_low", low, CALL}, {"nanobot_plan_swarm", swarm, CALL},
    {"nanobot_asm", assemble, CALL}, {"nanobot_dis", dis, CALL},
    {"nanobot_machine_start", start, START}, {"nanobot_machine_start_empty", start_empty, START}, {"nanobot_machine_copy", copy, START},
    {"nanobot_machine_step", step, OTHER}, {"nanobot_machine_play", play, OTHER}, {"nanobot_machine_judge", judge_steps, OTHER},
    {"nanobot_machine_undo", undo, OTHER},
    {"nanobot_machine_level", level, OTHER}, {"nanobot_machine_tell", tell, OTHER}, {"nanobot_machine_bots", bots, OTHER},
    {"nanobot_machine_full", full, OTHER}, {"nanobot_machine_count", count, OTHER}, {"nanobot_machine_model", matrix, OTHER},
    {"nanobot_machine_compare", compare, OTHER}, {"nanobot_machine_differences", differences, OTHER},
    {"nanobot_machine_aim", aim, OTHER}, {"nanobot_machine_remaining", remaining, OTHER},
    {"nanobot_machine_keep", keep, OTHER}, {"nanobot_machine_trace", kept, OTHER}, {"nanobot_machine_end", end, OTHER},
    {"nanobot_commands", commands, OTHER}, {"nanobot_version", version, OTHER},
};

static void *run(void *call)
{
    (*(void (**)(void))call)();
    return 0;
}

/* Whether the call returns in a thread with a stack of this many KB. */
static bool returns(void (*call)(void), size_t kb)
{
    int status;
    pid_t child = fork();
    if (child == 0) {
        pthread_attr_t attributes;
        pthread_t thread;
        uint8_t *bytes = mmap(0, GUARD + (kb << 10), PROT_NONE, MAP_PRIVATE | MAP_ANONYMOUS, -1, 0);
        if (bytes == MAP_FAILED || mprotect(bytes + GUARD, kb << 10, PROT_READ | PROT_WRITE)) _exit(2);
        pthread_attr_init(&attributes);
        if (pthread_attr_setstack(&attributes, bytes + GUARD, kb << 10)) _exit(2);
        if (pthread_create(&thread, &attributes, run, &call)) _exit(2);
        pthread_join(thread, 0);
        _exit(0);
    }
    if (child < 0 || waitpid(child, &status, 0) != child || (WIFEXITED(status) && WEXITSTATUS(status))) {
        puts("a thread could not be started");
        exit(2);
    }
    return WIFEXITED(status);
}

static void load(const char *name)
{
    FILE *file = fopen(name, "rb");
    model = malloc(ROOM);
    model_size = file ? fread(model, 1, ROOM, file) : 0;
    trace = malloc(ROOM);
    room = malloc(ROOM);
    if (nanobot_plan_crew(NONE, model, model_size, trace, ROOM, &trace_size)) exit(2);
    resolution = model[0];
    nanobot_machine_start_empty(resolution, false, 100, &machine);
    nanobot_machine_keep(&machine);
}

int main(int argc, char **argv)
{
    int failed = 0;
    if (argc != 2 + GROUPS) return 2;
    load(argv[1]);
    for (size_t at = 0; at < sizeof calls / sizeof *calls; at++) {
        size_t least = LEAST, most = MOST, figure = strtoul(argv[2 + calls[at].group], 0, 10);
        while (least < most) {
            size_t middle = (least + most) / 8 * 4;
            if (returns(calls[at].call, middle)) most = middle;
            else least = middle + 4;
        }
        printf("%s %zu KB%s\n", calls[at].name, least, least > figure ? ", MORE than the header has" : "");
        failed |= least > figure;
    }
    return failed;
}
