// A search over two machines, from C++, as search.c from C: `search T B` builds towards the model T by the steps that are best two moves
// deep, stores its trace as B, and prints the line of `nanobot run - T B` for it, which it also compares with the judge's. It also calls
// the planners, so that these two programs in C++ make every call.
#include "nanobot_machine.h"

#include <cstdio>
#include <cstdlib>
#include <fstream>
#include <iterator>
#include <limits>
#include <string>
#include <utility>
#include <vector>

using Bytes = std::vector<std::uint8_t>;
using Score = std::pair<std::uint32_t, std::int64_t>; // the number of wrong voxels, and the energy

static const int steps = 12;

static void must(std::uint32_t status)
{
    if (status != NANOBOT_DONE)
        std::exit(static_cast<int>(status));
}

static void require(bool holds)
{
    if (!holds)
        std::abort();
}

// Owns a machine over the empty model, or a copy of one.
class Machine {
public:
    explicit Machine(std::uint32_t resolution)
    {
        must(nanobot_machine_start_empty(resolution, false, 2, &handle));
        must(nanobot_machine_keep(&handle));
    }
    Machine(Machine &other) { must(nanobot_machine_copy(&other.handle, &handle)); }
    Machine &operator=(const Machine &) = delete;
    ~Machine() { nanobot_machine_end(&handle); }

    nanobot_state state()
    {
        nanobot_state told;
        must(nanobot_machine_tell(&handle, &told));
        return told;
    }
    bool judge(const Bytes &commands, nanobot_judged &told)
    {
        return nanobot_machine_judge(&handle, commands.data(), commands.size(), &told) == NANOBOT_DONE;
    }
    nanobot_step step(const Bytes &commands)
    {
        nanobot_step told;
        must(nanobot_machine_step(&handle, commands.data(), commands.size(), &told));
        return told;
    }
    void undo() { must(nanobot_machine_undo(&handle)); }
    void aim(const Bytes &target)
    {
        nanobot_refusal refusal;
        std::uint32_t wrong;
        must(nanobot_machine_aim(&handle, target.data(), target.size(), &wrong, &refusal));
    }
    Score score()
    {
        std::uint32_t wrong;
        must(nanobot_machine_remaining(&handle, &wrong));
        return {wrong, state().energy};
    }
    Bytes trace()
    {
        Bytes bytes(2 * steps + 2);
        std::size_t size;
        must(nanobot_machine_trace(&handle, bytes.data(), bytes.size(), &size));
        bytes.resize(size);
        return bytes;
    }
    std::uint32_t count()
    {
        std::uint32_t told;
        must(nanobot_machine_count(&handle, &told));
        return told;
    }
    bool full(std::uint32_t x, std::uint32_t y, std::uint32_t z)
    {
        std::uint32_t told;
        must(nanobot_machine_full(&handle, x, y, z, &told));
        return told == 1;
    }
    bool grounded(std::uint32_t x, std::uint32_t y, std::uint32_t z)
    {
        std::uint32_t level;
        return nanobot_machine_level(&handle, x, y, z, &level) == NANOBOT_DONE;
    }
    nanobot_bot bot()
    {
        nanobot_bot told;
        std::size_t count;
        must(nanobot_machine_bots(&handle, &told, 1, &count));
        return told;
    }

private:
    nanobot_machine handle = {nullptr};
};

// The fills of all near coordinates, and the moves by one.
static std::vector<Bytes> list_moves()
{
    std::vector<Bytes> moves;
    for (int code = 0; code < 27; code++) {
        int length = std::abs(code / 9 - 1) + std::abs(code / 3 % 3 - 1) + std::abs(code % 3 - 1);
        if (length == 1 || length == 2)
            moves.push_back({static_cast<std::uint8_t>(code << 3 | 3)});
    }
    for (int axis = 1; axis <= 3; axis++)
        for (int way : {-1, 1})
            moves.push_back({static_cast<std::uint8_t>(axis << 4 | 4), static_cast<std::uint8_t>(way + 15)});
    return moves;
}

// Returns the best score after this many moves, and the first of them.
static std::pair<Score, const Bytes *> search(Machine &machine, const std::vector<Bytes> &moves, int depth)
{
    std::pair<Score, const Bytes *> best = {{std::numeric_limits<std::uint32_t>::max(), 0}, nullptr};
    if (depth == 0)
        return {machine.score(), nullptr};
    for (const Bytes &move : moves) {
        nanobot_judged judged;
        if (!machine.judge(move, judged))
            continue;
        require(machine.step(move).energy == judged.energy);
        Score score = search(machine, moves, depth - 1).first;
        machine.undo();
        if (score < best.first)
            best = {score, &move};
    }
    return best;
}

// Checks that both machines have the same state, and that the trace is that of its own text.
static void check(Machine &made, Machine &scout, const Bytes &trace)
{
    nanobot_state a = made.state(), b = scout.state();
    require(a.energy == b.energy && a.steps == b.steps && made.count() == scout.count() && nanobot_version() >= 900);
    for (std::uint32_t x = 0; x < a.resolution; x++)
        require(made.full(x, 0, 1) == made.grounded(x, 0, 1));
    std::uint64_t commands, offset;
    must(nanobot_commands(nanobot_bytes(trace.data()), trace.size(), &commands, &offset));
    require(commands == a.steps && offset == 0);
    Bytes text(18 * trace.size() + 100), again(trace.size() + 100);
    std::size_t size, size_again;
    must(nanobot_dis(nanobot_bytes(trace.data()), trace.size(), text.data(), text.size(), &size));
    must(nanobot_asm(text.data(), size, again.data(), again.size(), &size_again));
    again.resize(size_again);
    require(again == trace);
}

// Returns the output of a call with a buffer of this room.
template <class Call> static Bytes given(std::uint64_t room, std::uint32_t wanted, Call call)
{
    Bytes bytes(static_cast<std::size_t>(room));
    std::size_t size;
    require(call(bytes.data(), bytes.size(), &size) == wanted);
    bytes.resize(size);
    return bytes;
}

static bool is_accepted(const Bytes &source, const Bytes &target, const Bytes &trace)
{
    std::int64_t energy;
    std::uint32_t count;
    const std::uint8_t *from = nanobot_bytes(source.data()), *to = nanobot_bytes(target.data());
    return nanobot_cost(from, source.size(), to, target.size(), trace.data(), trace.size(), false, &energy, &count) == NANOBOT_DONE;
}

// Checks that the judge agrees with the line printed here, and that it accepts the plans of the planners that build and take down every
// legal model.
static void judge(const Bytes &target, std::uint32_t r, const Bytes &trace, const std::string &line, std::uint32_t wanted)
{
    const std::uint8_t *t = target.data();
    Bytes told = given(200, wanted, [&](auto... to) {
        return nanobot_judge(NANOBOT_NONE, 0, t, target.size(), trace.data(), trace.size(), false, to...);
    });
    require(std::string(told.begin(), told.end()) == line);
    given(200, NANOBOT_DONE, [&](auto... to) { return nanobot_check(t, target.size(), to...); });
    require(is_accepted({}, target, given(nanobot_layer_room(r), NANOBOT_DONE, [&](auto... to) {
        return nanobot_plan_layer(NANOBOT_NONE, 0, t, target.size(), to...);
    })));
    require(is_accepted({}, target, given(nanobot_group_room(r), NANOBOT_DONE, [&](auto... to) {
        return nanobot_plan_group(NANOBOT_NONE, 0, t, target.size(), to...);
    })));
    require(is_accepted(target, {}, given(nanobot_layer_room(r), NANOBOT_DONE, [&](auto... to) {
        return nanobot_plan_crew(t, target.size(), NANOBOT_NONE, 0, to...);
    })));
    require(is_accepted({}, target, given(nanobot_swarm_room(r), NANOBOT_DONE, [&](auto... to) {
        return nanobot_plan_swarm(t, target.size(), to...);
    })));
    require(is_accepted(target, {}, given(nanobot_void_room(r), NANOBOT_DONE, [&](auto... to) {
        return nanobot_plan_void(t, target.size(), to...);
    })));
    Bytes low(static_cast<std::size_t>(nanobot_low_room(r)));
    std::size_t size;
    std::uint32_t status = nanobot_plan_low(t, target.size(), low.data(), low.size(), &size);
    low.resize(size);
    require(status == NANOBOT_UNSUPPORTED || (status == NANOBOT_DONE && is_accepted({}, target, low)));
}

int main(int count, char **words)
{
    if (count != 3)
        return NANOBOT_WORDS;
    std::ifstream file(words[1], std::ios::binary);
    const Bytes target((std::istreambuf_iterator<char>(file)), {}), halt = {0xff};
    std::uint32_t resolution = target.size() > 2 && target[0] == 0xff ? target[1] * 256u + target[2] : target[0];
    const std::vector<Bytes> moves = list_moves();
    Machine made(resolution);
    made.aim(target);
    Machine scout(made);
    nanobot_judged judged;
    for (int i = 0; i < steps && made.score().first > 0; i++) {
        const Bytes &best = *search(scout, moves, 2).second;
        made.step(best);
        scout.step(best);
    }
    if (made.score().first == 0 && made.judge(halt, judged)) {
        made.step(halt);
        scout.step(halt);
    }
    Bytes trace = made.trace();
    check(made, scout, trace);
    std::ofstream(words[2], std::ios::binary).write(reinterpret_cast<const char *>(trace.data()), static_cast<std::streamsize>(trace.size()));
    nanobot_state state = made.state();
    std::string line = "ok energy " + std::to_string(state.energy) + " steps " + std::to_string(state.steps) + "\n";
    if (state.active > 0) {
        nanobot_bot bot = made.bot();
        line = "broken 1 TraceEnds step " + std::to_string(state.steps + 1) + " bid " + std::to_string(bot.bid) + " at " + std::to_string(bot.x) + " "
            + std::to_string(bot.y) + " " + std::to_string(bot.z) + "\n";
    }
    std::uint32_t status = state.active > 0 ? NANOBOT_BROKEN : NANOBOT_DONE;
    judge(target, resolution, trace, line, status);
    std::fputs(line.c_str(), stdout);
    return static_cast<int>(status);
}
