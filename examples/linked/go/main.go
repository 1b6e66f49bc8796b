// A machine that persists between steps, from Go, as machine.c from C: `machine run [light] S T B` prints the line of `nanobot run` for a
// run that is accepted or breaks a rule, and exits with its status. The header and the library are found by the environment:
//
//	CGO_CFLAGS=-I$PWD/include CGO_LDFLAGS=$PWD/out/libnanobot.a go build -C examples/linked/go -o /tmp/machine .
package main

/*
#include "nanobot_machine.h"

// An empty slice has a null pointer, which no call accepts.
static const uint8_t *none(void) { return NANOBOT_NONE; }
*/
import "C"

import (
	"fmt"
	"os"
	"unsafe"
)

const mostBots = 40

// refusal is the refusal of a trace: the line that nanobot prints, and its status.
type refusal struct {
	line   string
	status int
}

func (r refusal) Error() string { return r.line }

// lend returns a pointer, which is never null, and a length.
func lend(data []byte) (*C.uint8_t, C.size_t) {
	if len(data) == 0 {
		return C.none(), 0
	}
	return (*C.uint8_t)(unsafe.Pointer(&data[0])), C.size_t(len(data))
}

// failed is the refusal of a status that has no line of its own.
func failed(status C.uint32_t) error {
	return refusal{C.GoString(C.nanobot_status_text(status)), int(status)}
}

// broken is the refusal of a step that breaks a rule.
func broken(b C.nanobot_broken) error {
	name := C.GoString(C.nanobot_rule_name(b.rule))
	line := fmt.Sprintf("broken %d %s step %d bid %d at %d %d %d", b.rule, name, b.step, b.bid, b.x, b.y, b.z)
	return refusal{line, C.NANOBOT_BROKEN}
}

// machine owns a machine of the library. The handle may lie in Go's memory: it keeps a pointer of C.
type machine struct {
	handle C.nanobot_machine
}

// resolutionOf returns the resolution that the bytes of a model begin with.
func resolutionOf(model []byte) C.uint32_t {
	if model[0] == 0xff {
		return C.uint32_t(model[1])<<8 | C.uint32_t(model[2])
	}
	return C.uint32_t(model[0])
}

// start begins a machine over the source, or over the empty model of the target's resolution.
func start(source, target []byte, light bool) (*machine, error) {
	m := &machine{}
	status := C.uint32_t(C.NANOBOT_DONE)
	if len(source) == 0 {
		status = C.nanobot_machine_start_empty(resolutionOf(target), C.bool(light), 0, &m.handle)
	} else {
		var why C.nanobot_refusal
		data, size := lend(source)
		status = C.nanobot_machine_start(data, size, C.bool(light), 0, &m.handle, &why)
	}
	if status != C.NANOBOT_DONE {
		return nil, failed(status)
	}
	return m, nil
}

// end frees the machine.
func (m *machine) end() { C.nanobot_machine_end(&m.handle) }

// state returns the energy, the steps and the active bots so far.
func (m *machine) state() C.nanobot_state {
	var told C.nanobot_state
	C.nanobot_machine_tell(&m.handle, &told)
	return told
}

// bot returns an active bot by its index.
func (m *machine) bot(index int) C.nanobot_bot {
	var bots [mostBots]C.nanobot_bot
	var count C.size_t
	C.nanobot_machine_bots(&m.handle, &bots[0], mostBots, &count)
	return bots[index]
}

// play makes the steps of a trace until one is refused, and returns the number of bytes left.
func (m *machine) play(trace []byte) (int, error) {
	var told C.nanobot_played
	data, size := lend(trace)
	status := C.nanobot_machine_play(&m.handle, data, size, ^C.uint32_t(0), &told)
	left := len(trace) - int(told.used)
	switch {
	case status == C.NANOBOT_BROKEN:
		return left, broken(told.broken)
	case told.active == 0:
		return left, nil // what follows is judged by finish
	case status == C.NANOBOT_DONE || status == C.NANOBOT_COUNT:
		b := m.bot(commands(trace[told.used:]))
		return left, broken(C.nanobot_broken{rule: 1, step: told.steps + 1, bid: b.bid, x: b.x, y: b.y, z: b.z})
	default:
		return left, failed(status)
	}
}

// commands returns the number of commands that the bytes spell.
func commands(trace []byte) int {
	var count, offset C.uint64_t
	data, size := lend(trace)
	C.nanobot_commands(data, size, &count, &offset)
	return int(count)
}

// finish judges the end of a run, with this many bytes left.
func (m *machine) finish(target []byte, left int) error {
	state := m.state()
	if left > 0 {
		return broken(C.nanobot_broken{rule: 13, step: state.steps})
	}
	if len(target) == 0 {
		target = emptyModel(int(state.resolution))
	}
	var place C.nanobot_place
	var why C.nanobot_refusal
	data, size := lend(target)
	switch status := C.nanobot_machine_compare(&m.handle, data, size, &place, &why); status {
	case C.NANOBOT_DONE:
		return nil
	case C.NANOBOT_DIFFERS:
		return broken(C.nanobot_broken{rule: 14, step: state.steps, x: place.x, y: place.y, z: place.z})
	default:
		return failed(status)
	}
}

// emptyModel returns the bytes of the empty model of a resolution.
func emptyModel(r int) []byte {
	if r > 250 {
		whole := r * r * r
		return []byte{0xff, byte(r >> 8), byte(r), byte(whole >> 24), byte(whole >> 16), byte(whole >> 8), byte(whole)}
	}
	return append([]byte{byte(r)}, make([]byte, (r*r*r+7)/8)...)
}

// run makes the steps of a trace from the source to the target, and returns the line of an accepted run.
func run(source, target, trace []byte, light bool) (string, error) {
	m, err := start(source, target, light)
	if err != nil {
		return "", err
	}
	defer m.end()
	left, err := m.play(trace)
	if err != nil {
		return "", err
	}
	if err := m.finish(target, left); err != nil {
		return "", err
	}
	state := m.state()
	return fmt.Sprintf("ok energy %d steps %d", state.energy, state.steps), nil
}

// load returns the bytes of a file, none for "-".
func load(name string) []byte {
	if name == "-" {
		return nil
	}
	data, err := os.ReadFile(name)
	if err != nil {
		fmt.Fprintln(os.Stderr, err)
		os.Exit(5)
	}
	return data
}

func main() {
	words := os.Args[1:]
	light := len(words) == 5 && words[1] == "light"
	if len(words) < 4 || words[0] != "run" {
		fmt.Fprintln(os.Stderr, "machine run [light] S T B")
		os.Exit(C.NANOBOT_WORDS)
	}
	files := words[len(words)-3:]
	line, err := run(load(files[0]), load(files[1]), load(files[2]), light)
	if err, is := err.(refusal); is {
		fmt.Println(err.line)
		os.Exit(err.status)
	}
	fmt.Println(line)
}
