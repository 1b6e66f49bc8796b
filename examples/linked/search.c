/* A search over two machines, from C: `search T B` builds towards the model T with one bot, by the steps that are best two moves deep,
 * stores its trace as B, and prints the line of `nanobot run - T B` for it. One machine makes the chosen steps and keeps the trace; on
 * the other, a copy, moves are judged, made and undone. It sees no farther than two moves: it shows the calls, and is no planner. Exits
 * with the program's status. */
#include "nanobot_machine.h"

#include <inttypes.h>
#include <stdio.h>
#include <stdlib.h>
#include <string.h>

enum { STEPS = 12, NOTES = 2, MOST_MOVES = 24, MOST_BYTES = 2 * STEPS + 2 };

struct bytes {
    uint8_t *at; /* never null */
    size_t size;
};

struct move {
    uint8_t bytes[2];
    size_t size;
};

/* The score of a state: first the number of wrong voxels, then the energy. */
struct score {
    uint32_t wrong;
    int64_t energy;
};

static void must(uint32_t status)
{
    if (status != NANOBOT_DONE)
        exit((int)status);
}

static struct bytes bytes_of(const char *name)
{
    struct bytes bytes = {malloc(1), 0};
    FILE *file = fopen(name, "rb");
    if (file == NULL)
        exit(5);
    for (int byte; (byte = getc(file)) != EOF; bytes.at[bytes.size++] = (uint8_t)byte)
        if ((bytes.at = realloc(bytes.at, bytes.size + 2)) == NULL)
            exit(NANOBOT_MEMORY);
    fclose(file);
    return bytes;
}

/* Returns the fills of all near coordinates, and the moves by one. */
static size_t list_moves(struct move *moves)
{
    size_t count = 0;
    for (int code = 0; code < 27; code++) {
        int length = abs(code / 9 - 1) + abs(code / 3 % 3 - 1) + abs(code % 3 - 1);
        struct move fill = {{(uint8_t)(code << 3 | 3), 0}, 1};
        if (length == 1 || length == 2)
            moves[count++] = fill;
    }
    for (int axis = 1; axis <= 3; axis++)
        for (int way = -1; way <= 1; way += 2) {
            struct move move = {{(uint8_t)(axis << 4 | 4), (uint8_t)(way + 15)}, 2};
            moves[count++] = move;
        }
    return count;
}

static bool better(struct score a, struct score b) { return a.wrong != b.wrong ? a.wrong < b.wrong : a.energy < b.energy; }

static struct score score_of(nanobot_machine *machine)
{
    nanobot_state state;
    struct score score;
    must(nanobot_machine_remaining(machine, &score.wrong));
    must(nanobot_machine_tell(machine, &state));
    score.energy = state.energy;
    return score;
}

/* Returns the best score after this many moves, and the first of them. */
static struct score search(nanobot_machine *machine, const struct move *moves, size_t count, int depth, size_t *first)
{
    struct score best = {UINT32_MAX, 0};
    if (depth == 0)
        return score_of(machine);
    for (size_t i = 0; i < count; i++) {
        nanobot_judged judged;
        nanobot_step step;
        struct score score;
        size_t next;
        if (nanobot_machine_judge(machine, moves[i].bytes, moves[i].size, &judged) != NANOBOT_DONE)
            continue;
        must(nanobot_machine_step(machine, moves[i].bytes, moves[i].size, &step));
        if (step.energy != judged.energy)
            abort();
        score = search(machine, moves, count, depth - 1, &next);
        must(nanobot_machine_undo(machine));
        if (better(score, best)) {
            best = score;
            *first = i;
        }
    }
    return best;
}

/* Checks that both machines have the same state, and that the trace is that of its own text. */
static void check(nanobot_machine *made, nanobot_machine *scout, struct bytes trace)
{
    nanobot_state a, b;
    uint32_t full, count_a, count_b, level = 0;
    uint64_t commands, offset;
    uint8_t text[18 * MOST_BYTES + 100], again[MOST_BYTES + 100];
    size_t size, size_again;
    must(nanobot_machine_tell(made, &a));
    must(nanobot_machine_tell(scout, &b));
    must(nanobot_machine_count(made, &count_a));
    must(nanobot_machine_count(scout, &count_b));
    if (a.energy != b.energy || a.steps != b.steps || count_a != count_b || nanobot_version() < 900)
        abort();
    for (uint32_t x = 0; x < a.resolution; x++) {
        must(nanobot_machine_full(made, x, 0, 1, &full));
        if (nanobot_machine_level(made, x, 0, 1, &level) != (full ? NANOBOT_DONE : NANOBOT_NO_LEVEL) || level != 0)
            abort();
    }
    must(nanobot_commands(trace.at, trace.size, &commands, &offset));
    if (commands != a.steps || offset != 0)
        abort();
    must(nanobot_dis(trace.at, trace.size, text, sizeof text, &size));
    must(nanobot_asm(text, size, again, sizeof again, &size_again));
    if (size_again != trace.size || memcmp(again, trace.at, trace.size) != 0)
        abort();
}

/* Prints the line for the trace, which ends before the halt or with it. */
static uint32_t tell(nanobot_machine *machine)
{
    nanobot_state state;
    nanobot_bot bot;
    size_t count;
    must(nanobot_machine_tell(machine, &state));
    if (state.active == 0) {
        printf("ok energy %" PRId64 " steps %u\n", state.energy, state.steps);
        return NANOBOT_DONE;
    }
    must(nanobot_machine_bots(machine, &bot, 1, &count));
    printf("broken 1 TraceEnds step %u bid %u at %u %u %u\n", state.steps + 1, bot.bid, bot.x, bot.y, bot.z);
    return NANOBOT_BROKEN;
}

static void store(const char *name, struct bytes bytes)
{
    FILE *file = fopen(name, "wb");
    if (file == NULL || fwrite(bytes.at, 1, bytes.size, file) != bytes.size || fclose(file) != 0)
        exit(5);
}

int main(int count, char **words)
{
    static const struct move halt = {{0xff, 0}, 1};
    struct move moves[MOST_MOVES];
    nanobot_machine made = {0}, scout = {0};
    nanobot_judged judged;
    nanobot_step step;
    nanobot_refusal refusal;
    uint8_t buffer[MOST_BYTES];
    struct bytes target, trace = {buffer, 0};
    size_t kinds = list_moves(moves), first = 0;
    uint32_t resolution, wrong, status;
    if (count != 3)
        return NANOBOT_WORDS;
    target = bytes_of(words[1]);
    resolution = target.size > 2 && target.at[0] == 0xff ? target.at[1] * 256u + target.at[2] : target.at[0];
    must(nanobot_machine_start_empty(resolution, false, NOTES, &made));
    must(nanobot_machine_keep(&made));
    must(nanobot_machine_aim(&made, target.at, target.size, &wrong, &refusal));
    must(nanobot_machine_copy(&made, &scout));
    for (int i = 0; i < STEPS && score_of(&made).wrong > 0; i++) {
        search(&scout, moves, kinds, 2, &first);
        must(nanobot_machine_step(&made, moves[first].bytes, moves[first].size, &step));
        must(nanobot_machine_step(&scout, moves[first].bytes, moves[first].size, &step));
    }
    if (score_of(&made).wrong == 0 && nanobot_machine_judge(&made, halt.bytes, halt.size, &judged) == NANOBOT_DONE) {
        must(nanobot_machine_step(&made, halt.bytes, halt.size, &step));
        must(nanobot_machine_step(&scout, halt.bytes, halt.size, &step));
    }
    must(nanobot_machine_trace(&made, buffer, sizeof buffer, &trace.size));
    check(&made, &scout, trace);
    store(words[2], trace);
    status = tell(&made);
    nanobot_machine_end(&scout);
    nanobot_machine_end(&made);
    free(target.at);
    return (int)status;
}
