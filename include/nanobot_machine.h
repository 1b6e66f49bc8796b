/* nanobot's machine as a static library: a machine that the caller keeps between steps, for planners and searches.
 *
 * A handle keeps a machine on the heap. Each call is proved to implement docs/FORMATS.md for a step, a level or a model; the
 * contracts are in crates/machine_c/src. Nothing checks that a caller in C keeps these rules:
 *
 * - Begin each handle as `nanobot_machine m = {0};`, and pass it to each call as the last one left it. Write neither `at` nor what
 *   it points to.
 * - Use only one copy of a handle that has a machine, since each copy would free it. For a second machine, call nanobot_machine_copy.
 *   To move a machine, copy the handle and set the old one to {0}. Overwriting or forgetting a handle only leaks its machine.
 * - The handle and each output pointer of a call each point to one object, are not null, and overlap no other argument. Even calls
 *   that only query the machine write to the handle. If a call takes two handles, they are different ones.
 * - Only one thread at a time uses a handle, not necessarily the one that started it. Calls on different handles may run at the
 *   same time.
 * - The rules at the top of nanobot.h hold for pointers and for the program's malloc. No pointer is null, not even with a length
 *   of 0: pass NANOBOT_NONE.
 * - The thread has 64 KB of stack for each of the two starts and for a copy, and 32 KB of stack for each other call. As in
 *   nanobot.h, these figures are measured.
 *
 * A refused call, for whatever reason, leaves the machine unchanged for the next call. After NANOBOT_MEMORY the next call that makes
 * or judges a step, or returns a level, takes as long as a start. If the machine keeps no notes and has no target, the same holds
 * after a step that breaks rule 12 (a voxel floats). No clause guarantees times; those in this header follow from the implementation.
 *
 * A call that has nothing to return (NANOBOT_NO_MACHINE, NANOBOT_NO_TRACE, NANOBOT_MEMORY) sets the *size of a buffer, and the
 * *count of nanobot_machine_bots, to 0. All other outputs that a status does not mention are unchanged.
 */
#ifndef NANOBOT_MACHINE_H
#define NANOBOT_MACHINE_H

#include "nanobot.h"

#ifdef __cplusplus
extern "C" {
#endif

/* A machine, or none: `at` is null if there is none. */
typedef struct nanobot_machine {
    void *at;
} nanobot_machine;

/* Statuses in addition to those of nanobot.h. Here NANOBOT_WORDS means that the call does not accept a number, and
 * NANOBOT_TRACE that the bytes are no commands. */
enum {
    NANOBOT_NO_MACHINE = 11, /* The handle is empty; nothing is written. */
    NANOBOT_ENDED = 12,      /* No bot is active any more, whatever the commands are. */
    NANOBOT_COUNT = 13,      /* Some bot is active, and there are more or fewer commands than active bots. */
    NANOBOT_LONG = 14,       /* There is one command for each bot, but the machine has made all of its 1,073,741,824 steps. */
    NANOBOT_NO_NOTE = 15,    /* No earlier step is noted, so none can be undone. */
    NANOBOT_OUTSIDE = 16,    /* The coordinate is outside the matrix. */
    NANOBOT_NO_LEVEL = 17,   /* The voxel is void, or not grounded. */
    NANOBOT_DIFFERS = 18,    /* The matrix is not the target. */
    NANOBOT_RESOLUTION = 19, /* The target is of another resolution. */
    NANOBOT_BEGUN = 20,      /* The machine has made steps, so its trace cannot begin here. */
    NANOBOT_NO_TRACE = 21,   /* No trace is kept. */
    NANOBOT_NO_TARGET = 22   /* The machine has no target. */
};

/* Returns the meaning of a status of either header, or "" for any other number.
 *
 *     puts(nanobot_status_text(NANOBOT_ENDED));                        // no bot is active any more
 */
static inline const char *nanobot_status_text(uint32_t status)
{
    static const char *const texts[] = {"done",
                                        "a rule is broken",
                                        "an argument is not one that the call takes",
                                        "a model is refused, or two resolutions differ",
                                        "a command is bad or cut",
                                        "a file could not be read",
                                        "",
                                        "out of memory",
                                        "a text is refused",
                                        "a part of the target is unsupported",
                                        "the buffer is too small",
                                        "there is no machine",
                                        "no bot is active any more",
                                        "more or fewer commands than active bots",
                                        "the machine has made its last step",
                                        "no earlier step is noted",
                                        "the coordinate is out of space",
                                        "the voxel is void, or not grounded",
                                        "the matrix is not the target",
                                        "the target is of another resolution",
                                        "steps were made before",
                                        "no trace is kept",
                                        "the machine has no target"};
    return status < sizeof texts / sizeof texts[0] ? texts[status] : "";
}

/* Returns the name of a rule by its number (docs/FORMATS.md, "Rules"), or "" for any other number.
 *
 *     puts(nanobot_rule_name(12));                                     // Ungrounded
 */
static inline const char *nanobot_rule_name(uint32_t rule)
{
    static const char *const names[] = {"",          "TraceEnds",  "HaltAlone",    "HaltOrigin", "HaltLow",   "OutOfSpace",  "Blocked",  "Seeds",
                                        "InRegion",  "Partner",    "GroupShape",   "Interference", "Ungrounded", "AfterHalt", "WrongResult", "Forbidden"};
    return rule < sizeof names / sizeof names[0] ? names[rule] : "";
}

/* Returns the name of the refusal of a model by its number (docs/FORMATS.md, "Refusals"), or "" for any other number.
 *
 *     puts(nanobot_refusal_name(7));                                   // Floating
 */
static inline const char *nanobot_refusal_name(uint32_t number)
{
    static const char *const names[] = {"",         "NoByte",   "Resolution",     "Short",   "Long",      "",        "Border",
                                        "Floating", "WideHead", "WideResolution", "WideRun", "WideShort", "WideLong"};
    return number < sizeof names / sizeof names[0] ? names[number] : "";
}

/* The refusal of a model: its `number` (docs/FORMATS.md, "Model files", "Refusals") and the values that belong to it. `want` is the
 * required number of bytes; `have` is the resolution, the number of bytes or voxels, or the index of a run; x, y and z are the
 * voxel. All other fields are 0, and without a refusal all are. */
typedef struct nanobot_refusal {
    uint32_t number, want, have, x, y, z;
} nanobot_refusal;

/* A coordinate. */
typedef struct nanobot_place {
    uint32_t x, y, z;
} nanobot_place;

/* The broken rule, by its number (docs/FORMATS.md, "Rules"), with the step, the bot (0 for rule 12), and the coordinate. */
typedef struct nanobot_broken {
    uint32_t rule, step, bid, x, y, z;
} nanobot_broken;

/* The machine after a successful or refused step: its energy, the number of steps made and of active bots, and `high`, which is 1
 * under high harmonics. `changed` is the number of voxels that the step changed, 0 if it was refused. `offset` is the first byte of a
 * bad or cut command (NANOBOT_TRACE), and `broken` the broken rule (NANOBOT_BROKEN); otherwise they are 0. */
typedef struct nanobot_step {
    int64_t energy;
    uint64_t offset;
    uint32_t steps, active;
    nanobot_broken broken;
    uint32_t high, changed;
} nanobot_step;

/* The progress of a played trace: the number of steps `made`, the number of bytes `used` by them, and the machine's state after
 * them, as in nanobot_state. `offset` and `broken` are those of the refused step, as in nanobot_step, but `offset` counts from the
 * beginning of the trace. */
typedef struct nanobot_played {
    int64_t energy;
    uint64_t used, offset;
    uint32_t made, steps, active, high;
    nanobot_broken broken;
} nanobot_played;

/* The outcome that a step would have. Energy, active bots and harmonics are those after the step, or the machine's own if it would
 * be refused. `changed` is the number of voxels that it would change, and `halts` is 1 if it would leave no bot. `offset` and
 * `broken` are as in nanobot_step. */
typedef struct nanobot_judged {
    int64_t energy;
    uint64_t offset;
    uint32_t halts;
    nanobot_broken broken;
    uint32_t active, high, changed;
} nanobot_judged;

/* The state of a machine: `high` is 1 under high harmonics, and `noted` steps can be undone. */
typedef struct nanobot_state {
    int64_t energy;
    uint32_t steps, active, resolution, high;
    uint64_t noted;
} nanobot_state;

/* An active bot. Bit k of `seeds` is 1 if this bot can make bot k. */
typedef struct nanobot_bot {
    uint64_t seeds;
    uint32_t bid, x, y, z;
} nanobot_bot;

/* Starts a machine over the legal model of these bytes, under the light profile or the full one. The handle's earlier machine is
 * freed. NANOBOT_MODEL: the model is refused for the reason in *refusal.
 *
 * The last `notes` steps can be undone; `notes` is at most 4096. Such a noted step keeps 6 bytes for each voxel that it changed: 722 MB
 * were measured for 4096 steps that each fill or void a box of 31 by 31 by 31 voxels, and 3.7 GB for five such boxes a step.
 *
 *     nanobot_machine machine = {0};
 *     nanobot_refusal refusal;
 *     if (nanobot_machine_start(model, model_size, false, 100, &machine, &refusal) == NANOBOT_MODEL)
 *         printf("refusal %u\n", (unsigned)refusal.number);
 */
uint32_t nanobot_machine_start(const uint8_t *model, size_t model_size, bool light, uint32_t notes,
                               nanobot_machine *machine, nanobot_refusal *refusal);

/* The same over the empty model of a resolution from 1 to 400.
 *
 *     nanobot_machine_start_empty(20, false, 100, &machine);
 */
uint32_t nanobot_machine_start_empty(uint32_t resolution, bool light, uint32_t notes, nanobot_machine *machine);

/* Makes one step. The bytes are those of a trace: one command for each active bot, in ascending order of their bids.
 *
 *     nanobot_step step;
 *     const uint8_t wait[] = {0xfe};
 *     if (nanobot_machine_step(&machine, wait, sizeof wait, &step) == NANOBOT_BROKEN)
 *         printf("rule %u at bot %u\n", (unsigned)step.broken.rule, (unsigned)step.broken.bid);
 */
uint32_t nanobot_machine_step(nanobot_machine *machine, const uint8_t *commands, size_t commands_size, nanobot_step *step);

/* Plays a trace: makes at most `most` of its steps one after another, each as nanobot_machine_step does. NANOBOT_DONE: `most` steps
 * were made, or the bytes ended. Any other status but NANOBOT_NO_MACHINE is that of the step that begins at byte played.used: it was
 * refused, and the machine is in the state before it. So it is with NANOBOT_MEMORY, and with NANOBOT_COUNT if the last step has fewer
 * commands than there are active bots.
 *
 *     nanobot_played played;
 *     if (nanobot_machine_play(&machine, trace, trace_size, UINT32_MAX, &played) == NANOBOT_BROKEN)
 *         printf("step %u begins at byte %llu\n", (unsigned)played.broken.step, (unsigned long long)played.used);
 */
uint32_t nanobot_machine_play(nanobot_machine *machine, const uint8_t *trace, size_t trace_size, uint32_t most, nanobot_played *played);

/* Judges a step of these bytes without making it: returns the status that nanobot_machine_step would return, and writes the energy
 * after the step. The machine does not change. Nothing is copied: a judgement takes as long as a step and an undo. If the step breaks
 * rule 12, the call also searches for the least voxel that floats, in up to 2 ns for each voxel of the matrix. It does not if the
 * step's only change is one filled voxel.
 *
 *     nanobot_judged judged;
 *     if (nanobot_machine_judge(&machine, wait, sizeof wait, &judged) == NANOBOT_DONE)
 *         printf("would cost %lld\n", (long long)(judged.energy - step.energy));
 */
uint32_t nanobot_machine_judge(nanobot_machine *machine, const uint8_t *commands, size_t commands_size, nanobot_judged *judged);

/* Undoes the last step, if one is noted: NANOBOT_DONE or NANOBOT_NO_NOTE. It may allocate, but never returns NANOBOT_MEMORY: if
 * allocation fails, the step is undone all the same, and the next step, judgement or level takes as long as a start.
 *
 *     nanobot_machine_undo(&machine);
 */
uint32_t nanobot_machine_undo(nanobot_machine *machine);

/* Starts a second machine in the state of the first one, with the same target, and with a trace of its own if one is kept. The new
 * machine can undo no earlier step. A copy takes as long as a start over such a model.
 *
 *     nanobot_machine other = {0};
 *     nanobot_machine_copy(&machine, &other);
 */
uint32_t nanobot_machine_copy(nanobot_machine *machine, nanobot_machine *copy);

/* Writes the state of the machine.
 *
 *     nanobot_state state;
 *     if (nanobot_machine_tell(&machine, &state) == NANOBOT_DONE) printf("%lld\n", (long long)state.energy);
 */
uint32_t nanobot_machine_tell(nanobot_machine *machine, nanobot_state *state);

/* Writes the active bots, at most 40, in ascending order of their bids. *count is their number; if it is above `room`, the status
 * is NANOBOT_TOO_SMALL, and the buffer is unchanged.
 *
 *     nanobot_bot bots[40];
 *     size_t count;
 *     nanobot_machine_bots(&machine, bots, 40, &count);
 */
uint32_t nanobot_machine_bots(nanobot_machine *machine, nanobot_bot *bots, size_t room, size_t *count);

/* Writes 1 if the voxel at a coordinate is full, and 0 if it is void.
 *
 *     uint32_t full;
 *     nanobot_machine_full(&machine, 1, 0, 1, &full);
 */
uint32_t nanobot_machine_full(nanobot_machine *machine, uint32_t x, uint32_t y, uint32_t z, uint32_t *full);

/* Writes the level of a full voxel: its distance from the floor along full voxels.
 *
 *     uint32_t level;
 *     if (nanobot_machine_level(&machine, 1, 0, 1, &level) == NANOBOT_NO_LEVEL) puts("void");
 */
uint32_t nanobot_machine_level(nanobot_machine *machine, uint32_t x, uint32_t y, uint32_t z, uint32_t *level);

/* Counts the full voxels.
 *
 *     uint32_t count_full;
 *     nanobot_machine_count(&machine, &count_full);
 */
uint32_t nanobot_machine_count(nanobot_machine *machine, uint32_t *count);

/* Writes the matrix as the bytes of a model: at most nanobot_model_room(r) bytes at resolution r.
 *
 *     uint8_t matrix[1001];
 *     nanobot_machine_model(&machine, matrix, sizeof matrix, &size);
 */
uint32_t nanobot_machine_model(nanobot_machine *machine, uint8_t *model, size_t room, size_t *size);

/* Compares the matrix with the model of these bytes, which need not be legal. NANOBOT_DIFFERS: *place is the least coordinate
 * at which they differ. NANOBOT_RESOLUTION: their resolutions differ. NANOBOT_MODEL: the bytes are no model, for the reason in *refusal.
 * Outputs that do not belong to the status are 0.
 *
 *     nanobot_place place;
 *     if (nanobot_machine_compare(&machine, model, model_size, &place, &refusal) == NANOBOT_DIFFERS)
 *         printf("differs at %u %u %u\n", (unsigned)place.x, (unsigned)place.y, (unsigned)place.z);
 */
uint32_t nanobot_machine_compare(nanobot_machine *machine, const uint8_t *target, size_t target_size, nanobot_place *place,
                                 nanobot_refusal *refusal);

/* Counts the coordinates at which the matrix and the model of these bytes differ, 0 if they are the same. The statuses are those of
 * nanobot_machine_compare without NANOBOT_DIFFERS.
 *
 *     uint32_t left;
 *     if (nanobot_machine_differences(&machine, model, model_size, &left, &refusal) == NANOBOT_DONE)
 *         printf("%u voxels to go\n", (unsigned)left);
 */
uint32_t nanobot_machine_differences(nanobot_machine *machine, const uint8_t *target, size_t target_size, uint32_t *count,
                                     nanobot_refusal *refusal);

/* Makes the model of these bytes the machine's target, in place of any earlier one, and counts the differences as
 * nanobot_machine_differences does. From then on each step and each undo updates that number, at the cost of a comparison for each
 * voxel that it changes. A copy has the same target. A refused call leaves the target unchanged.
 *
 *     nanobot_machine_aim(&machine, model, model_size, &left, &refusal);
 */
uint32_t nanobot_machine_aim(nanobot_machine *machine, const uint8_t *target, size_t target_size, uint32_t *count,
                             nanobot_refusal *refusal);

/* Writes the number of coordinates at which the matrix differs from the machine's target, without counting again.
 * NANOBOT_NO_TARGET: the machine has no target.
 *
 *     if (nanobot_machine_remaining(&machine, &left) == NANOBOT_DONE) printf("%u voxels to go\n", (unsigned)left);
 */
uint32_t nanobot_machine_remaining(nanobot_machine *machine, uint32_t *count);

/* Keeps the trace of the machine from now on: the commands of all steps that are made and not undone. NANOBOT_BEGUN if steps were
 * made before. A machine keeps none when it starts.
 *
 *     nanobot_machine_keep(&other);
 */
uint32_t nanobot_machine_keep(nanobot_machine *machine);

/* Writes the trace, if it is kept (otherwise NANOBOT_NO_TRACE): its commands lead from the model at the start to the machine's state.
 *
 *     uint8_t made[1000];
 *     if (nanobot_machine_trace(&machine, made, sizeof made, &size) == NANOBOT_DONE) fwrite(made, 1, size, stdout);
 */
uint32_t nanobot_machine_trace(nanobot_machine *machine, uint8_t *trace, size_t room, size_t *size);

/* Frees the machine, if there is one: the handle is then empty, and may be started again.
 *
 *     nanobot_machine_end(&other);
 *     nanobot_machine_end(&machine);
 */
void nanobot_machine_end(nanobot_machine *machine);

/* Counts the commands of a trace; nanobot_cost returns its energy and steps. NANOBOT_TRACE: *offset is the first byte
 * of a bad or cut command. Outputs that do not belong to the status are 0.
 *
 *     uint64_t commands, offset;
 *     if (nanobot_commands(trace, trace_size, &commands, &offset) == NANOBOT_DONE)
 *         printf("%llu commands\n", (unsigned long long)commands);
 */
uint32_t nanobot_commands(const uint8_t *trace, size_t trace_size, uint64_t *count, uint64_t *offset);

/* Returns the version of the library as one number: 10000 a + 100 b + c for a NANOBOT_VERSION of "a.b.c".
 *
 *     printf("version %u\n", (unsigned)nanobot_version());              // version 900
 */
uint32_t nanobot_version(void);

/* The most bytes of a model at resolution r: up to 250 one byte and then a bit for each voxel, above 250 seven bytes and at most a run
 * of four bytes for each voxel. */
static inline uint64_t nanobot_model_room(uint64_t r) { return r <= 250 ? 1 + (r * r * r + 7) / 8 : 7 + 4 * r * r * r; }

#ifdef __cplusplus
}
#endif

#endif
