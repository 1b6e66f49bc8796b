/* nanobot as a static library: judges traces, checks models and makes plans, on bytes in memory.
 *
 * Each call returns what the program `nanobot` prints or stores for files of the same bytes (docs/FORMATS.md, "Printed lines").
 * That is proved: the contracts are in crates/nanobot_c/src. Nothing checks callers in other languages: the contracts hold
 * only if they follow these rules, and a wrong pointer or length is as undefined as anywhere in C.
 *
 * - Each input pointer points to that many readable bytes, and each buffer to that many writable ones, for the whole call. No
 *   pointer is null, not even for a length of 0: the compiled code relies on that, as Rust's slices do. An empty std::vector,
 *   an empty slice in Go and ctypes' None have a null pointer: pass NANOBOT_NONE, or call nanobot_bytes and nanobot_buffer.
 * - Nothing else writes to the inputs or the buffer during the call. Inputs may overlap one another; the buffer, `size`,
 *   `energy` and `steps` overlap no other argument. No length exceeds PTRDIFF_MAX.
 * - `size`, `energy` and `steps` point to one number each.
 * - `malloc`, `realloc` and `free` of the program come from one allocator and align as the C library's do. No call is made
 *   from a signal handler, or from the forked child of a process with threads.
 * - The thread has 192 KB of stack for the call: a thread of glibc has 8 MB, but one of musl only 128 KB. The figure is
 *   measured (scripts/try linked); no clause bounds it.
 *
 * Calls keep no state between them, so threads may call at the same time. A call frees all that it allocates before it
 * returns. It returns for all bytes, also invalid ones. No clause bounds its time or memory.
 *
 * A source or a target of length 0 is the empty model of the other's resolution, as `-` is for the program. This holds for
 * nanobot_judge, nanobot_cost, nanobot_plan_layer, nanobot_plan_group and nanobot_plan_crew. For the other calls it is an
 * empty file. Pass NANOBOT_NONE as its pointer.
 *
 * The output is written to the front of the caller's buffer of `room` bytes, without a final byte 0, and `*size` is its
 * length. The rest of the buffer is unchanged. If the output is longer than `room`, the status is NANOBOT_TOO_SMALL,
 * `*size` is the required room, and the whole buffer is unchanged.
 *
 * To build and link: `./prove` makes out/libnanobot.a, and a package has it as lib/libnanobot.a; it links by itself, as in
 * `cc -Iinclude call.c out/libnanobot.a`. scripts/try linked does so for C, C++, Rust, Go and Python.
 */
#ifndef NANOBOT_H
#define NANOBOT_H

#include <stdbool.h>
#include <stddef.h>
#include <stdint.h>

/* The version of this header and of its library. */
#define NANOBOT_VERSION "0.9.0"

#ifdef __cplusplus
extern "C" {
#endif

/* The pointer to pass with a length of 0, since none may be null. */
#ifdef __cplusplus
#define NANOBOT_NONE (reinterpret_cast<const uint8_t *>(""))
#else
#define NANOBOT_NONE ((const uint8_t *)"")
#endif

/* Returns the same pointer, or NANOBOT_NONE for a null one, which data() of an empty std::vector may be:
 * `nanobot_check(nanobot_bytes(model.data()), model.size(), ..)`. */
static inline const uint8_t *nanobot_bytes(const uint8_t *bytes) { return bytes ? bytes : NANOBOT_NONE; }

/* Returns the same pointer or, for a null one, that of a byte to which nothing is written: for a buffer of room 0. */
static inline uint8_t *nanobot_buffer(uint8_t *buffer)
{
    static uint8_t nothing;
    return buffer ? buffer : &nothing;
}

/* The statuses: those of the program except 6, and 10. */
enum {
    NANOBOT_DONE = 0,        /* The trace is accepted, the model is legal, the plan is made. */
    NANOBOT_BROKEN = 1,      /* A rule is broken. */
    NANOBOT_WORDS = 2,       /* Neither a source nor a target has bytes. */
    NANOBOT_MODEL = 3,       /* A model is refused, two resolutions differ, or a group plan may be too long. */
    NANOBOT_TRACE = 4,       /* The trace is refused: a bad or cut command, or more than 1073741824 bytes. */
    NANOBOT_DEPOT = 5,       /* A file could not be read: never here, since there are no files. */
    NANOBOT_MEMORY = 7,      /* Out of memory: nothing is written, and *size, *energy and *steps are 0. */
    NANOBOT_TEXT = 8,        /* A text is refused. */
    NANOBOT_UNSUPPORTED = 9, /* A part of the target of a low plan is unsupported. */
    NANOBOT_TOO_SMALL = 10   /* The buffer is too small: *size is the required room. */
};

/* Judges the trace from the source to the target, by the light profile or the full one. Returns the line that
 * `nanobot run S T B`, or `nanobot run light S T B`, prints, with its line feed; no line is longer than 200 bytes.
 *
 *     uint8_t line[200];
 *     size_t size;
 *     uint32_t status = nanobot_judge(NANOBOT_NONE, 0, model, model_size, trace, trace_size, false, line, sizeof line, &size);
 *     if (status != NANOBOT_MEMORY) fwrite(line, 1, size, stdout);     // ok energy 187750212 steps 784
 */
uint32_t nanobot_judge(const uint8_t *source, size_t source_size, const uint8_t *target, size_t target_size,
                       const uint8_t *trace, size_t trace_size, bool light,
                       uint8_t *line, size_t room, size_t *size);

/* Judges as nanobot_judge does, and returns the energy and the number of steps of an accepted run; otherwise both are 0.
 *
 *     int64_t energy;
 *     uint32_t steps;
 *     if (nanobot_cost(NANOBOT_NONE, 0, model, model_size, trace, trace_size, false, &energy, &steps)
 *         == NANOBOT_DONE)
 *         printf("%lld\n", (long long)energy);                         // 187750212
 */
uint32_t nanobot_cost(const uint8_t *source, size_t source_size, const uint8_t *target, size_t target_size,
                      const uint8_t *trace, size_t trace_size, bool light,
                      int64_t *energy, uint32_t *steps);

/* Judges the model, and returns the line that `nanobot check M` prints.
 *
 *     nanobot_check(model, model_size, line, sizeof line, &size);      // legal resolution 20 full 388
 */
uint32_t nanobot_check(const uint8_t *model, size_t model_size, uint8_t *line, size_t room, size_t *size);

/* The planners. Each returns the trace that the program's command stores: nanobot_judge accepts it from the source to the
 * target, and those of nanobot_plan_low and nanobot_plan_swarm by the light profile too. If the status is not 0, it returns the
 * line that the program prints.
 *
 * Each call plans again from the start, so pass enough room the first time: the functions nanobot_ROW_room below return the most
 * bytes of a plan at resolution r. They follow from the proved bounds on its steps (docs/FORMATS.md) and the sizes of its
 * commands. A group plan usually takes far fewer: start with some megabytes, and check the status.
 *
 * nanobot_plan_layer, one bot:
 *
 *     uint8_t plan[8 * 20 * 20 * 20 + 200];
 *     nanobot_plan_layer(NANOBOT_NONE, 0, model, model_size, plan, sizeof plan, &size);      // size is 755
 */
uint32_t nanobot_plan_layer(const uint8_t *source, size_t source_size, const uint8_t *target, size_t target_size,
                            uint8_t *plan, size_t room, size_t *size);

/* At most two bots, which fill and void runs together.
 *
 *     nanobot_plan_group(model, model_size, NANOBOT_NONE, 0, plan, sizeof plan, &size);      // takes the model down
 */
uint32_t nanobot_plan_group(const uint8_t *source, size_t source_size, const uint8_t *target, size_t target_size,
                            uint8_t *plan, size_t room, size_t *size);

/* Up to forty bots: the cheapest of its own plans and of those of the other planners. It takes far fewer bytes than 2^30, the
 * only proved bound: start with some megabytes, and check the status.
 *
 *     nanobot_plan_crew(NANOBOT_NONE, 0, model, model_size, plan, sizeof plan, &size);       // size is 1011
 */
uint32_t nanobot_plan_crew(const uint8_t *source, size_t source_size, const uint8_t *target, size_t target_size,
                           uint8_t *plan, size_t room, size_t *size);

/* At most four bots, which take the source down.
 *
 *     nanobot_plan_void(model, model_size, plan, sizeof plan, &size);
 */
uint32_t nanobot_plan_void(const uint8_t *source, size_t source_size, uint8_t *plan, size_t room, size_t *size);

/* One bot, which builds the target under Low all the time, if each part of it is supported.
 *
 *     if (nanobot_plan_low(model, model_size, plan, sizeof plan, &size) == NANOBOT_UNSUPPORTED)
 *         fwrite(plan, 1, size, stdout);                               // unsupported at 3 1 1
 */
uint32_t nanobot_plan_low(const uint8_t *target, size_t target_size, uint8_t *plan, size_t room, size_t *size);

/* Up to twenty bots, which build the target.
 *
 *     nanobot_plan_swarm(model, model_size, plan, sizeof plan, &size);
 */
uint32_t nanobot_plan_swarm(const uint8_t *target, size_t target_size, uint8_t *plan, size_t room, size_t *size);

/* Reads the text of a trace, and returns the trace that `nanobot asm X B` stores, or the line that the program prints if the text
 * is refused (NANOBOT_TEXT). A trace has no more bytes than its text.
 *
 *     const uint8_t text[] = "Wait\nHalt\n";
 *     nanobot_asm(text, sizeof text - 1, plan, sizeof plan, &size);     // fe ff
 */
uint32_t nanobot_asm(const uint8_t *text, size_t text_size, uint8_t *trace, size_t room, size_t *size);

/* Reads a trace of at most 50,000,000 bytes, and returns the text that `nanobot dis B X` stores, or the line that the program
 * prints if the trace is refused. A text has at most 18 bytes for each byte of its trace; a line has fewer than 100 bytes.
 *
 *     uint8_t spelled[100];
 *     nanobot_dis(plan, size, spelled, sizeof spelled, &size);          // Wait, Halt
 */
uint32_t nanobot_dis(const uint8_t *trace, size_t trace_size, uint8_t *text, size_t room, size_t *size);

/* Returns the size of a command by its first byte, 1, 2 or 4 bytes; 0 if no command begins with it. It cuts a trace that
 * nanobot_commands accepts into its commands; in other bytes, those after the first one may spell no command.
 *
 *     for (size_t at = 0; at < size && nanobot_command_size(plan[at]) > 0; at += nanobot_command_size(plan[at]))
 *         printf("a command at %zu\n", at);
 */
static inline size_t nanobot_command_size(uint8_t first)
{
    /* Bit n is 1 if n is the number of a near difference. */
    const uint32_t near_differences = 0x02EBDEBA;
    const unsigned word = first & 7u, number = first >> 3;
    if (first >= 0xFD) /* Flip, Wait, Halt. */
        return 1;
    if (word == 4) { /* SMove has an axis in bits 4 and 5 and two bits 0 above it, LMove an axis in each pair of bits. */
        const unsigned axis = first >> 4 & 3u, second = first >> 6;
        return axis != 0 && (first & 8u ? second != 0 : second == 0) ? 2 : 0;
    }
    if ((near_differences >> number & 1u) == 0)
        return 0;
    return word == 5 ? 2 : word < 2 ? 4 : 1;
}

/* Returns the most bytes that a plan takes at resolution r, which is at most 400. */
static inline uint64_t nanobot_layer_room(uint64_t r) { return 8 * r * r * r + 200; }

/* A row has at most (r + 1) / 2 runs, and each model r * r rows. */
static inline uint64_t nanobot_group_room(uint64_t r)
{
    return 36 * (2 * r * r * ((r + 1) / 2)) + 640 * (2 * r * r) + 800 * r + 1600;
}

/* Four bots, and a command takes at most four bytes. */
static inline uint64_t nanobot_void_room(uint64_t r)
{
    uint64_t side = (r + 30) / 31;
    return 16 * (8 * r * side * side + 8 * r + 200);
}

/* One bot, whose commands take at most two bytes; at most r * r * r voxels are full. */
static inline uint64_t nanobot_low_room(uint64_t r) { return 2 * (5 * r * r * r + 200); }

/* Twenty bots, whose commands take at most two bytes. */
static inline uint64_t nanobot_swarm_room(uint64_t r)
{
    uint64_t strip = (r + 17) / 20;
    return 40 * (4 * (strip < 1 ? 1 : strip) * r * r + 8 * r + 2000);
}

#ifdef __cplusplus
}
#endif

#endif
