package vuthgal

// #include <vuthgal.h>
import "C"

import (
	"fmt"
	"strings"
)

// look is what a look at a session writes: so much room is always enough.
type look struct {
	state    C.vuthgal_state
	threads  [64]C.vuthgal_thread
	phasers  [64]C.vuthgal_phaser
	barriers [64]C.vuthgal_barrier
	cells    [32]C.int32_t
}

// look looks at the session, whose lock is held.
func (s *Session) look() (*look, error) {
	l := new(look)
	status := C.vuthgal_session_look(&s.handle, &l.state, &l.threads[0], 64, &l.phasers[0], 64, &l.barriers[0], 64, &l.cells[0], 32)
	return l, fault(status, nil)
}

// thread is a thread that was looked at.
func (l *look) thread(number int) (*C.vuthgal_thread, error) {
	if number < 0 || number >= int(l.state.threads) {
		return nil, noThread(Choice{Thread: number})
	}
	return &l.threads[number], nil
}

var (
	standings   = [...]Word{C.VUTHGAL_LIVE: Live, C.VUTHGAL_STUCK: Stuck, C.VUTHGAL_ALL: All}
	statuses    = [...]ThreadStatus{Runs, Throws, Waits, Waits, Ended, Died}
	entryKinds  = [...]byte{C.VUTHGAL_CALL: 'C', C.VUTHGAL_HANDLER: 'H', C.VUTHGAL_ROUTINE: 'A', C.VUTHGAL_ACTION: 'X'}
	placeLetter = map[C.uint8_t]string{C.VUTHGAL_AWAITS_PHASE: "p", C.VUTHGAL_AWAITS_BARRIER: "b"}
)

// stack is that of a thread that was looked at.
func (s *Session) stack(thread int, it *C.vuthgal_thread) []Entry {
	if it.entries == 0 {
		return nil
	}
	entries := make([]C.vuthgal_entry, it.entries)
	var count C.size_t
	C.vuthgal_session_stack(&s.handle, C.uint8_t(thread), &entries[0], C.size_t(len(entries)), &count)
	stack := make([]Entry, len(entries))
	for n, entry := range entries {
		stack[n] = Entry{entryKinds[entry.kind], int(entry.number)}
	}
	return stack
}

// outputs are those of a thread that was looked at.
func (s *Session) outputs(thread int, it *C.vuthgal_thread) []int32 {
	if it.outputs == 0 {
		return nil
	}
	values := make([]C.int32_t, it.outputs)
	var count C.size_t
	C.vuthgal_session_outputs(&s.handle, C.uint8_t(thread), &values[0], C.size_t(len(values)), &count)
	out := make([]int32, len(values))
	for n, value := range values {
		out[n] = int32(value)
	}
	return out
}

// State is how all stand now.
func (s *Session) State() (State, error) {
	s.mutex.Lock()
	defer s.mutex.Unlock()
	l, err := s.look()
	if err != nil {
		return State{}, err
	}
	return s.state(l), nil
}

// state is what a look says, with the stacks and the outputs of its threads.
func (s *Session) state(l *look) State {
	state := State{Choices: uint64(l.state.choices), Steps: uint64(l.state.steps), Word: standings[l.state.standing]}
	for n := 0; n < int(l.state.threads); n++ {
		it := &l.threads[n]
		thread := Thread{Number: n, Row: int(it.row), Status: statuses[it.status], Interrupted: it.interrupted != 0}
		if thread.Status == Throws || thread.Status == Died {
			thread.Exception = int32(it.value)
		}
		for register, value := range it.registers {
			thread.Registers[register] = int32(value)
		}
		thread.Stack, thread.Out = s.stack(n, it), s.outputs(n, it)
		state.Threads = append(state.Threads, thread)
	}
	for n, it := range l.phasers[:l.state.phasers] {
		state.Phasers = append(state.Phasers, Phaser{n, int32(it.phase), int(it.parties), int(it.arrived), int(it.unarrived)})
	}
	for n, it := range l.barriers[:l.state.barriers] {
		state.Barriers = append(state.Barriers, Barrier{n, int(it.waiting), it.broken != 0})
	}
	for n, value := range l.cells {
		state.Cells[n] = int32(value)
	}
	return state
}

// WaitsAt is where a thread waits, as `p0` or `b1`. It is empty if the thread doesn't.
func (s *Session) WaitsAt(thread int) (string, error) {
	s.mutex.Lock()
	defer s.mutex.Unlock()
	l, err := s.look()
	if err != nil {
		return "", err
	}
	it, err := l.thread(thread)
	if err != nil || placeLetter[it.status] == "" {
		return "", err
	}
	return fmt.Sprintf("%s%d", placeLetter[it.status], it.object), nil
}

// Fingerprint is a key for a map of the states that were seen: equal where a look at two sessions of one program finds no difference but
// the counts of choices and steps. A look doesn't see which registers a routine has saved, nor how a released wait will end.
type Fingerprint string

// Fingerprint is that of the present state.
func (s *Session) Fingerprint() (Fingerprint, error) {
	s.mutex.Lock()
	defer s.mutex.Unlock()
	l, err := s.look()
	if err != nil {
		return "", err
	}
	var text strings.Builder
	text.WriteString(s.state(l).WithoutCounts().String())
	for _, it := range l.threads[:l.state.threads] {
		fmt.Fprintln(&text, it.status, it.value, it.object)
	}
	for _, it := range l.phasers[:l.state.phasers] {
		fmt.Fprintln(&text, it.parent)
	}
	for _, it := range l.barriers[:l.state.barriers] {
		fmt.Fprintln(&text, it.parties, it.runner)
	}
	turns, expiries := s.enabled()
	fmt.Fprintln(&text, turns, expiries)
	return Fingerprint(text.String()), nil
}
