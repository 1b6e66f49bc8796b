// A machine that persists between steps, from C++, as machine.c from C: `machine run [light] S T B` prints the line of `nanobot run` for
// a run that is accepted or breaks a rule. Each step is made, undone, and made again, and half way the machine continues as a copy;
// another machine plays the trace by one call.
#include "nanobot_machine.h"

#include <algorithm>
#include <cstdio>
#include <cstdlib>
#include <fstream>
#include <iterator>
#include <string>
#include <utility>
#include <vector>

using Bytes = std::vector<std::uint8_t>;

// A pointer that is never null, also if there are no bytes.
static const std::uint8_t *at(const Bytes &bytes) { return nanobot_bytes(bytes.data()); }

static void must(std::uint32_t status)
{
    if (status != NANOBOT_DONE)
        std::exit(static_cast<int>(status));
}

// Owns a machine: it moves, and is freed at its end.
class Machine {
public:
    Machine(const Bytes &source, std::uint32_t resolution, bool light)
    {
        nanobot_refusal refusal;
        must(source.empty() ? nanobot_machine_start_empty(resolution, light, 4, &handle)
                            : nanobot_machine_start(at(source), source.size(), light, 4, &handle, &refusal));
    }
    Machine(Machine &&other) noexcept : handle(std::exchange(other.handle, nanobot_machine{nullptr})) {}
    Machine &operator=(Machine &&other) noexcept
    {
        std::swap(handle, other.handle);
        return *this;
    }
    ~Machine() { nanobot_machine_end(&handle); }

    Machine copy()
    {
        Machine made;
        must(nanobot_machine_copy(&handle, &made.handle));
        return made;
    }
    nanobot_state state()
    {
        nanobot_state told;
        must(nanobot_machine_tell(&handle, &told));
        return told;
    }
    std::vector<nanobot_bot> bots()
    {
        std::vector<nanobot_bot> told(40);
        std::size_t count;
        must(nanobot_machine_bots(&handle, told.data(), told.size(), &count));
        told.resize(count);
        return told;
    }
    std::uint32_t step(const std::uint8_t *commands, std::size_t size, nanobot_step &told)
    {
        return nanobot_machine_step(&handle, commands, size, &told);
    }
    nanobot_played play(const Bytes &trace)
    {
        nanobot_played told;
        nanobot_machine_play(&handle, at(trace), trace.size(), UINT32_MAX, &told);
        return told;
    }
    void undo() { must(nanobot_machine_undo(&handle)); }
    std::uint32_t compare(const Bytes &target, nanobot_place &place)
    {
        nanobot_refusal refusal;
        return nanobot_machine_compare(&handle, at(target), target.size(), &place, &refusal);
    }
    Bytes model()
    {
        Bytes bytes(nanobot_model_room(state().resolution));
        std::size_t size;
        must(nanobot_machine_model(&handle, bytes.data(), bytes.size(), &size));
        bytes.resize(size);
        return bytes;
    }

private:
    Machine() = default;
    nanobot_machine handle = {nullptr};
};

static int broken(nanobot_broken b)
{
    std::printf("broken %u %s step %u bid %u at %u %u %u\n", b.rule, nanobot_rule_name(b.rule), b.step, b.bid, b.x, b.y, b.z);
    return NANOBOT_BROKEN;
}

static Bytes bytes_of(const std::string &name)
{
    if (name == "-")
        return {};
    std::ifstream file(name, std::ios::binary);
    return Bytes(std::istreambuf_iterator<char>(file), {});
}

// Returns the size in bytes of a command with this first byte; 1 if it begins none, for which the machine refuses the step.
static std::size_t length_of(std::uint8_t first) { return std::max<std::size_t>(nanobot_command_size(first), 1); }

static int finish(Machine &machine, const Bytes &target, bool left)
{
    nanobot_state state = machine.state();
    nanobot_place place;
    if (left)
        return broken({13, state.steps, 0, 0, 0, 0});
    std::uint32_t status = machine.compare(target.empty() ? Machine({}, state.resolution, false).model() : target, place);
    if (status == NANOBOT_DIFFERS)
        return broken({14, state.steps, 0, place.x, place.y, place.z});
    must(status);
    std::printf("ok energy %lld steps %u\n", static_cast<long long>(state.energy), state.steps);
    return NANOBOT_DONE;
}

static int run(Machine &machine, const Bytes &target, const Bytes &trace)
{
    for (std::size_t first = 0, next = 0;; first = next) {
        std::vector<nanobot_bot> bots = machine.bots();
        nanobot_step step;
        if (bots.empty())
            return finish(machine, target, first < trace.size());
        for (const nanobot_bot &bot : bots) {
            if (next >= trace.size())
                return broken({1, machine.state().steps + 1, bot.bid, bot.x, bot.y, bot.z});
            next += length_of(trace[next]);
        }
        std::size_t size = std::min(next, trace.size()) - first;
        std::uint32_t status = machine.step(trace.data() + first, size, step);
        if (status == NANOBOT_BROKEN)
            return broken(step.broken);
        must(status);
        machine.undo();
        must(machine.step(trace.data() + first, size, step));
        if (first < trace.size() / 2 && next >= trace.size() / 2)
            machine = machine.copy();
    }
}

int main(int count, char **words)
{
    bool light = count == 6 && std::string(words[2]) == "light";
    if (count != 5 + light)
        return NANOBOT_WORDS;
    Bytes source = bytes_of(words[2 + light]), target = bytes_of(words[3 + light]), trace = bytes_of(words[4 + light]);
    std::uint32_t resolution = target.size() > 2 && target[0] == 0xff ? target[1] * 256u + target[2] : target.empty() ? 0 : target[0];
    Machine machine(source, resolution, light);
    int status = run(machine, target, trace);
    nanobot_played played = Machine(source, resolution, light).play(trace);
    if (played.energy != machine.state().energy || played.steps != machine.state().steps)
        std::abort();
    return status;
}
