// What scripts/try fuzz gives libFuzzer: calls of the library on models, traces and texts that are made of the fuzzer's bytes, or are these
// bytes. What is lent lies in heap blocks of exactly its size, so that ASan sees each access beyond, and what two calls say of one
// thing is compared.
#include "nanobot.h"
#include "nanobot_machine.h"
#include <cinttypes>
#include <cstdio>
#include <cstdlib>
#include <cstring>
#include <string>
#include <vector>

using Bytes = std::vector<uint8_t>;

#define CHECK(holds)                                                          \
    do {                                                                      \
        if (!(holds)) {                                                       \
            fprintf(stderr, "%s:%d: not so: %s\n", __FILE__, __LINE__, #holds); \
            abort();                                                          \
        }                                                                     \
    } while (0)

// Bytes in a heap block of exactly their size.
struct Lent {
    uint8_t *block;
    size_t size;
    explicit Lent(const Bytes &bytes) : block((uint8_t *)malloc(bytes.size() ? bytes.size() : 1)), size(bytes.size())
    {
        if (size) memcpy(block, bytes.data(), size);
    }
    Lent(const Lent &) = delete;
    ~Lent() { free(block); }
    const uint8_t *at() const { return size ? block : NANOBOT_NONE; }
};

// The status of a call that gives bytes, which are put into `given`. A buffer that is too small is left as it was, and so is what
// lies behind the bytes.
template <class Call> static uint32_t give(Call call, Bytes &given, size_t room)
{
    for (int turn = 0; turn < 2; turn++) {
        Lent buffer(Bytes(room, 0xA5));
        size_t size = SIZE_MAX;
        uint32_t status = call(room ? buffer.block : (uint8_t *)NANOBOT_NONE, room, &size);
        bool is_small = status == NANOBOT_TOO_SMALL;
        CHECK(is_small == (size > room));
        for (size_t i = is_small ? 0 : size; i < room; i++)
            CHECK(buffer.block[i] == 0xA5);
        if (!is_small) {
            given.assign(buffer.block, buffer.block + size);
            return status;
        }
        room = size;
    }
    CHECK(!"the room that was asked for is too small");
}

static std::string text_of(const Bytes &bytes) { return std::string(bytes.begin(), bytes.end()); }

// ---- what is made of the fuzzer's bytes

struct Input {
    const uint8_t *at;
    size_t left;
    uint8_t next()
    {
        if (!left) return 0;
        left--;
        return *at++;
    }
    Bytes take(size_t count)
    {
        if (count > left) count = left;
        Bytes taken(at, at + count);
        at += count;
        left -= count;
        return taken;
    }
};

// A legal model: of the voxels that the bits name, those that are grounded.
static Bytes make_model(Input &input, int r)
{
    Bytes model(1 + (r * r * r + 7) / 8, 0), bits = input.take(r > 2 ? ((r - 2) * (r - 2) * (r - 1) + 7) / 8 : 0);
    std::vector<char> named(r * r * r, 0);
    std::vector<int> found;
    size_t bit = 0;
    model[0] = (uint8_t)r;
    for (int x = 1; x < r - 1; x++)
        for (int z = 1; z < r - 1; z++)
            for (int y = 0; y < r - 1; y++, bit++) {
                if (bit / 8 >= bits.size() || !(bits[bit / 8] >> bit % 8 & 1)) continue;
                named[(x * r + y) * r + z] = 1;
                if (!y) found.push_back(x * r * r + z);
            }
    for (; !found.empty();) {
        int place = found.back(), y = place / r % r;
        found.pop_back();
        if (!named[place]) continue;
        named[place] = 0;
        model[1 + place / 8] |= 1 << place % 8;
        // The border is void, so only the floor has a neighbor that is none.
        for (int other : {place - r * r, place + r * r, place - 1, place + 1, place + r, y ? place - r : place})
            if (named[other]) found.push_back(other);
    }
    return model;
}

// A trace, most commands of which are encoded as they have to be.
static Bytes make_trace(Input &input)
{
    static const uint8_t near[] = {1, 3, 4, 5, 7, 9, 10, 11, 12, 14, 15, 16, 17, 19, 21, 22, 23, 25};
    static const uint8_t tails[] = {7, 6, 5, 3, 3, 2, 1, 0};
    Bytes trace;
    auto put = [&](int byte) { trace.push_back((uint8_t)byte); };
    while (input.left) {
        uint8_t kind = input.next(), tail = tails[kind / 16 % 8];
        if (kind % 16 < 3) {
            put(0xFF - kind % 16);
        } else if (kind % 16 < 6) {
            put((1 + input.next() % 3) << 4 | 4);
            put(input.next() % 31);
        } else if (kind % 16 == 6) {
            put((1 + input.next() % 3) << 4 | (1 + input.next() % 3) << 6 | 12);
            put(input.next() % 11 << 4 | input.next() % 11);
        } else if (kind % 16 < 15) {
            put(near[input.next() % sizeof near] << 3 | tail);
            if (tail == 5) put(input.next());
            for (int i = 0; tail < 2 && i < 3; i++)
                put(kind & 128 ? 28 + input.next() % 5 : input.next() % 61);
        } else {
            put(input.next());
        }
    }
    return trace;
}

// How many bytes the command has that begins with this one (docs/FORMATS.md, "Trace files").
static size_t size_of(uint8_t first)
{
    if (first >= 0xFD) return 1;
    return (first & 7) < 2 ? 4 : (first & 7) == 4 || (first & 7) == 5 ? 2 : 1;
}

// ---- traces that are judged, and walked by the machine

static nanobot_state state_of(nanobot_machine *machine)
{
    nanobot_state state;
    CHECK(nanobot_machine_tell(machine, &state) == NANOBOT_DONE);
    return state;
}

// Whether the step that these commands make is that of the line: made, or refused as the line says.
static bool makes_step(nanobot_machine *machine, const Bytes &commands, const std::string &line)
{
    Lent lent(commands);
    nanobot_state before = state_of(machine), after;
    nanobot_judged judged;
    nanobot_step step;
    uint32_t status = nanobot_machine_judge(machine, lent.at(), lent.size, &judged);
    CHECK(nanobot_machine_step(machine, lent.at(), lent.size, &step) == status);
    CHECK(status == NANOBOT_DONE || status == NANOBOT_BROKEN);
    after = state_of(machine);
    if (status == NANOBOT_DONE) {
        CHECK(judged.energy == step.energy && (judged.halts == 1) == (step.active == 0));
        CHECK(after.energy == step.energy && after.steps == step.steps && after.active == step.active);
        return true;
    }
    const nanobot_broken &it = step.broken;
    char begin[40], end[100];
    snprintf(begin, sizeof begin, "broken %" PRIu32 " ", it.rule);
    snprintf(end, sizeof end, " step %" PRIu32 " bid %" PRIu32 " at %" PRIu32 " %" PRIu32 " %" PRIu32 "\n", it.step, it.bid, it.x, it.y, it.z);
    CHECK(line.find(begin) == 0 && line.find(end) != std::string::npos);
    CHECK(!memcmp(&judged.broken, &it, sizeof it) && !memcmp(&before, &after, sizeof before));
    return false;
}

// Compares the end of a walk, before `offset`, with the line and with what the trace costs.
static void check_end(nanobot_machine *machine, const Bytes &target, size_t left, const std::string &line, uint32_t status)
{
    Lent lent(target);
    nanobot_place place;
    nanobot_refusal refusal;
    nanobot_state state = state_of(machine);
    char expected[100];
    if (left) {
        CHECK(line.find("broken 13 AfterHalt") == 0);
    } else if (!target.empty() && nanobot_machine_compare(machine, lent.at(), lent.size, &place, &refusal) == NANOBOT_DIFFERS) {
        snprintf(expected, sizeof expected, "broken 14 WrongResult step %" PRIu32 " bid 0 at %" PRIu32 " %" PRIu32 " %" PRIu32 "\n", state.steps, place.x, place.y, place.z);
        CHECK(line == expected);
    } else if (!target.empty()) {
        snprintf(expected, sizeof expected, "ok energy %" PRId64 " steps %" PRIu32 "\n", state.energy, state.steps);
        CHECK(status == NANOBOT_DONE && line == expected);
    }
}

// Plays the trace by one call, which has to come as far as a walk by single steps.
static void check_play(nanobot_machine *machine, const Bytes &trace, size_t used, const nanobot_state &state)
{
    Lent lent(trace);
    nanobot_played played;
    uint32_t status = nanobot_machine_play(machine, lent.at(), lent.size, UINT32_MAX, &played);
    CHECK(played.used == used && played.energy == state.energy && played.steps == state.steps && played.made == state.steps);
    CHECK(played.active == state.active && played.high == state.high && (status != NANOBOT_DONE || used == trace.size()));
}

// Walks a trace of legal commands, and compares each step with the line.
static void walk(nanobot_machine *machine, const Bytes &target, const Bytes &trace, const std::string &line, uint32_t status)
{
    size_t offset = 0;
    bool goes_on = true;
    nanobot_machine other = {0};
    CHECK(nanobot_machine_keep(machine) == NANOBOT_DONE && nanobot_machine_copy(machine, &other) == NANOBOT_DONE);
    for (uint32_t active; goes_on && (active = state_of(machine).active);) {
        size_t end = offset;
        uint32_t count = 0;
        for (; count < active && end < trace.size(); count++)
            end += size_of(trace[end]);
        if (count < active) {
            CHECK(line.find("broken 1 TraceEnds") == 0);
            goes_on = false;
        } else {
            goes_on = makes_step(machine, Bytes(trace.begin() + offset, trace.begin() + end), line);
            offset = goes_on ? end : offset;
        }
    }
    if (goes_on) check_end(machine, target, trace.size() - offset, line, status);
    Bytes kept;
    CHECK(give([&](uint8_t *b, size_t room, size_t *size) { return nanobot_machine_trace(machine, b, room, size); }, kept, offset / 2) == NANOBOT_DONE);
    CHECK(kept == Bytes(trace.begin(), trace.begin() + offset));
    check_play(&other, trace, offset, state_of(machine));
    nanobot_machine_end(&other);
}

// A step that is taken back, and a copy.
static void check_undo(nanobot_machine *machine)
{
    nanobot_machine copy = {0};
    uint32_t count, copied;
    uint32_t can_undo = state_of(machine).noted ? NANOBOT_DONE : NANOBOT_NO_NOTE;
    CHECK(nanobot_machine_undo(machine) == can_undo);
    CHECK(nanobot_machine_copy(machine, &copy) == NANOBOT_DONE);
    CHECK(nanobot_machine_count(machine, &count) == NANOBOT_DONE && nanobot_machine_count(&copy, &copied) == NANOBOT_DONE);
    CHECK(count == copied);
    nanobot_machine_end(&copy);
    CHECK(!copy.at);
}

// The status and the line of a trace, which nanobot_judge and nanobot_cost have to agree on.
static uint32_t judge(const Bytes &source, const Bytes &target, const Bytes &trace, bool light, std::string &line, int64_t &energy)
{
    Lent s(source), t(target), b(trace);
    Bytes given;
    uint32_t steps;
    char expected[100];
    uint32_t status = nanobot_cost(s.at(), s.size, t.at(), t.size, b.at(), b.size, light, &energy, &steps);
    CHECK(status <= NANOBOT_TRACE);
    CHECK(status == give([&](uint8_t *buffer, size_t room, size_t *size) { return nanobot_judge(s.at(), s.size, t.at(), t.size, b.at(), b.size, light, buffer, room, size); }, given, 200));
    line = text_of(given);
    snprintf(expected, sizeof expected, "ok energy %" PRId64 " steps %" PRIu32 "\n", energy, steps);
    CHECK(status == NANOBOT_DONE ? line == expected : !energy && !steps && !line.empty() && line.back() == '\n');
    return status;
}

static void check_judge(const Bytes &source, const Bytes &target, const Bytes &trace, bool light)
{
    std::string line, full_line;
    int64_t energy, full_energy;
    uint32_t status = judge(source, target, trace, light, line, energy);
    if (light && status == NANOBOT_DONE) CHECK(judge(source, target, trace, false, full_line, full_energy) == NANOBOT_DONE && line == full_line);
    Lent s(source), b(trace);
    nanobot_machine machine = {0};
    nanobot_refusal refusal;
    uint64_t count, offset;
    uint32_t started = NANOBOT_MODEL, counted = nanobot_commands(b.at(), b.size, &count, &offset);
    if (!source.empty()) {
        started = nanobot_machine_start(s.at(), s.size, light, 3, &machine, &refusal);
        CHECK(started == NANOBOT_DONE || status == NANOBOT_MODEL);
    } else if (!target.empty() && target[0] && target[0] <= 250) {
        started = nanobot_machine_start_empty(target[0], light, 3, &machine);
        CHECK(started == NANOBOT_DONE);
    }
    if (started != NANOBOT_DONE) return;
    if (status != NANOBOT_MODEL) {
        CHECK((counted == NANOBOT_DONE) == (status != NANOBOT_TRACE));
        std::string at = std::to_string(offset) + "\n";
        if (counted == NANOBOT_DONE) {
            walk(&machine, target, trace, line, status);
            check_undo(&machine);
        } else {
            CHECK(line == "trace bad at " + at || line == "trace cut at " + at);
        }
    }
    nanobot_machine_end(&machine);
    CHECK(!machine.at);
}

// ---- plans, which are accepted, within their rooms, and of which that of a crew is the cheapest

static int64_t cost_of(const Bytes &source, const Bytes &target, const Bytes &plan, bool light)
{
    std::string line;
    int64_t energy;
    CHECK(judge(source, target, plan, light, line, energy) == NANOBOT_DONE);
    return energy;
}

// The plan of one model, by a planner that may refuse it: its energy, or none.
template <class Call, class Room> static void check_one(Call call, Room room_of, const Bytes &model, bool is_source, int64_t crew)
{
    Lent lent(model);
    Bytes plan;
    uint32_t status = give([&](uint8_t *buffer, size_t room, size_t *size) { return call(lent.at(), lent.size, buffer, room, size); }, plan, 100);
    CHECK(status == NANOBOT_DONE || (status == NANOBOT_UNSUPPORTED && call == nanobot_plan_low));
    if (status != NANOBOT_DONE) return;
    CHECK(crew <= (is_source ? cost_of(model, {}, plan, false) : cost_of({}, model, plan, true)));
    CHECK(model[0] == 255 || plan.size() <= room_of(model[0]));
}

static void check_plans(const Bytes &source, const Bytes &target)
{
    Lent s(source), t(target);
    decltype(&nanobot_plan_layer) planners[] = {nanobot_plan_layer, nanobot_plan_group, nanobot_plan_crew};
    Bytes plan, refused;
    int64_t energies[3];
    for (int i = 0; i < 3; i++) {
        uint32_t status = give([&](uint8_t *buffer, size_t room, size_t *size) { return planners[i](s.at(), s.size, t.at(), t.size, buffer, room, size); }, plan, i * 2000);
        if (status != NANOBOT_DONE) {
            CHECK(!i || plan == refused);
            refused = plan;
            continue;
        }
        CHECK(refused.empty());
        energies[i] = cost_of(source, target, plan, false);
        uint8_t r = (source.empty() ? target : source)[0];
        if (i < 2 && r != 255) CHECK(plan.size() <= (i ? nanobot_group_room(r) : nanobot_layer_room(r)));
    }
    if (!refused.empty()) return;
    CHECK(energies[2] <= energies[0] && energies[2] <= energies[1]);
    if (target.empty()) check_one(nanobot_plan_void, nanobot_void_room, source, true, energies[2]);
    if (!source.empty()) return;
    check_one(nanobot_plan_swarm, nanobot_swarm_room, target, false, energies[2]);
    check_one(nanobot_plan_low, nanobot_low_room, target, false, energies[2]);
}

// ---- texts, traces and models by themselves

template <class Call> static uint32_t give_of(Call call, const Bytes &bytes, Bytes &given, size_t room)
{
    Lent lent(bytes);
    return give([&](uint8_t *buffer, size_t most, size_t *size) { return call(lent.at(), lent.size, buffer, most, size); }, given, room);
}

static void check_trace(const Bytes &trace)
{
    Lent lent(trace);
    Bytes text, again;
    uint64_t count, offset;
    uint32_t counted = nanobot_commands(lent.at(), lent.size, &count, &offset), status = give_of(nanobot_dis, trace, text, 64);
    CHECK(status == counted && (status == NANOBOT_DONE || status == NANOBOT_TRACE));
    if (status != NANOBOT_DONE) return;
    size_t lines = 0;
    for (uint8_t letter : text)
        lines += letter == '\n';
    CHECK(!offset && lines == count && text.size() <= 18 * trace.size());
    CHECK(give_of(nanobot_asm, text, again, 10) == NANOBOT_DONE && again == trace);
}

static void check_text(const Bytes &text)
{
    Bytes trace;
    uint32_t status = give_of(nanobot_asm, text, trace, text.size());
    CHECK(status == NANOBOT_DONE || status == NANOBOT_TEXT);
    if (status == NANOBOT_TEXT) {
        CHECK(text_of(trace).find("text ") == 0);
    } else {
        CHECK(trace.size() <= text.size());
        check_trace(trace);
    }
}

static void check_model(const Bytes &model)
{
    Lent lent(model);
    Bytes line;
    nanobot_machine machine = {0};
    nanobot_refusal refusal;
    uint32_t count, status = give_of(nanobot_check, model, line, 3);
    CHECK(nanobot_machine_start(lent.at(), lent.size, false, 0, &machine, &refusal) == status);
    if (status != NANOBOT_DONE) {
        CHECK(status == NANOBOT_MODEL && !machine.at && text_of(line).find("model " + std::to_string(refusal.number) + " ") == 0);
        return;
    }
    CHECK(nanobot_machine_count(&machine, &count) == NANOBOT_DONE);
    CHECK(text_of(line) == "legal resolution " + std::to_string(state_of(&machine).resolution) + " full " + std::to_string(count) + "\n");
    nanobot_machine_end(&machine);
}

extern "C" int LLVMFuzzerTestOneInput(const uint8_t *data, size_t size)
{
    Input input = {data, size};
    uint8_t kind = input.next() % 12, flags = input.next(), first = input.next(), second = input.next();
    bool is_made = kind < 3 || kind == 4;
    Bytes source, target;
    if (is_made) {
        source = make_model(input, 1 + first % 9);
        target = flags & 2 ? Bytes() : flags & 4 ? source : make_model(input, 1 + (flags & 8 ? second : first) % 9);
        if (flags & 16) source.clear();
    } else if (kind == 3 || kind == 5) {
        source = input.take(first);
        target = input.take(second);
    }
    if (kind < 3) check_judge(source, target, make_trace(input), flags & 1);
    if (kind == 3) check_judge(source, target, input.take(input.left), flags & 1);
    if (kind == 4 || kind == 5) check_plans(source, target);
    if (kind == 6 || kind == 7) check_text(input.take(input.left));
    if (kind == 8) check_trace(input.take(input.left));
    if (kind == 9) check_trace(make_trace(input));
    if (kind < 10) return 0;
    Bytes model = {0xFF, (uint8_t)(first & 1), second}, rest = input.take(input.left);
    if (kind == 10) model.clear();
    model.insert(model.end(), rest.begin(), rest.end());
    check_model(model);
    return 0;
}
