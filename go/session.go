package vuthgal

// #include <vuthgal.h>
import "C"

import (
	"bytes"
	"math"
	"strconv"
	"strings"
	"sync"
)

// Session is a program that is played choice by choice, as `vuthgal debug` plays it: each step takes as long as the first. Close frees
// what it holds. Goroutines may share it: its calls follow one another.
type Session struct {
	mutex   sync.Mutex
	handle  C.vuthgal_session
	program []byte
	// Threads are the names of the threads, if the program is a text.
	Threads []string
}

// names are those of a text's threads. An image has none.
func names(program []byte) []string {
	var names []string
	if bytes.HasPrefix(program, []byte("PBW1")) || bytes.HasPrefix(program, []byte("PBW2")) {
		return nil
	}
	for _, line := range strings.Split(string(program), "\n") {
		code, _, _ := strings.Cut(line, ";")
		words := strings.Fields(code)
		if len(words) > 0 && words[0] == ".run" {
			break
		}
		if len(words) > 1 && words[0] == ".thread" {
			names = append(names, words[1])
		}
	}
	return names
}

// Open opens a session of a program, a text or an image.
func Open(program []byte) (*Session, error) {
	session := new(Session)
	line := make([]byte, C.VUTHGAL_LINE)
	var length C.size_t
	status := C.vuthgal_session_open(&session.handle, at(program), size(program), at(line), size(line), &length)
	if err := fault(status, line[:length]); err != nil {
		return nil, err
	}
	session.program = append([]byte(nil), program...)
	session.Threads = names(program)
	return session, nil
}

func noThread(choice Choice) error { return &Fault{Status: NoThread, Line: choice.String()} }

// Thread is the number of the thread with a name.
func (s *Session) Thread(name string) (int, error) {
	for number, it := range s.Threads {
		if it == name {
			return number, nil
		}
	}
	return 0, &Fault{Status: NoThread, Line: name}
}

// Command carries out a command of the debugger, such as `k 3` or `g t0*3 t1`, and returns the reply.
func (s *Session) Command(command string) (string, error) {
	s.mutex.Lock()
	defer s.mutex.Unlock()
	words := []byte(command)
	output := make([]byte, 256)
	var length C.size_t
	status := C.vuthgal_session_command(&s.handle, at(words), size(words), at(output), size(output), &length)
	if int(length) > len(output) {
		output = make([]byte, length)
		status = C.vuthgal_session_reply(&s.handle, at(output), size(output), &length)
	}
	if status != C.VUTHGAL_DONE && status != C.VUTHGAL_UNLIKE {
		return "", fault(status, nil)
	}
	if reply := string(output[:length]); reply != "?\n" {
		return reply, nil
	}
	return "", malformed(command)
}

// Play plays a choice. One that is refused changes nothing: the fault is NoThread or StepLimit.
func (s *Session) Play(choice Choice) (Line, error) {
	if choice.Thread < 0 || choice.Thread > math.MaxUint8 {
		return Line{}, noThread(choice)
	}
	s.mutex.Lock()
	defer s.mutex.Unlock()
	var event C.vuthgal_event
	status := C.vuthgal_session_step(&s.handle, C.uint8_t(choice.Thread), flag(choice.Expiry), &event)
	switch status {
	case C.VUTHGAL_DONE:
		return line(choice, &event)
	case C.VUTHGAL_NO_THREAD:
		return Line{}, noThread(choice)
	}
	return Line{}, fault(status, nil)
}

// Step plays a step of a thread.
func (s *Session) Step(thread int) (Line, error) { return s.Play(Choice{Thread: thread}) }

// Expire lets the timed wait of a thread expire.
func (s *Session) Expire(thread int) (Line, error) { return s.Play(Choice{thread, true}) }

// Gone is where a schedule that a session played came to.
type Gone struct {
	// Word is `end`, all choices were played; `at`, the thread of the last one stands at a breakpoint; `fault`, the next was refused.
	Word    string
	Choices int
	// Why is `none`, there is no such thread; `limit`, of steps; or `memory`. It is empty without a fault.
	Why string
}

// Go plays a schedule, up to a breakpoint.
func (s *Session) Go(schedule string) (Gone, error) {
	reply, err := s.Command("g " + schedule)
	if err != nil {
		return Gone{}, err
	}
	words := append(strings.Fields(reply), "", "")
	choices, err := strconv.Atoi(words[1])
	if err != nil {
		return Gone{}, &Fault{Status: Unknown, Line: reply}
	}
	return Gone{words[0], choices, words[2]}, nil
}

// Back takes back the last choice. The fault is NoHistory if none is kept; the newest 4,096 are.
func (s *Session) Back() error {
	s.mutex.Lock()
	defer s.mutex.Unlock()
	status := C.vuthgal_session_back(&s.handle)
	if status == C.VUTHGAL_UNLIKE {
		return &Fault{Status: NoHistory}
	}
	return fault(status, nil)
}

// GoTo goes to the state after the first choices of played, the schedule of what was played from the beginning on. They are played anew,
// so they may be more than 4,096 back. With a fault nothing changes: Malformed if it is no schedule, or has fewer choices.
func (s *Session) GoTo(played string, number int) error {
	if number < 0 {
		return malformed("choice " + strconv.Itoa(number))
	}
	s.mutex.Lock()
	defer s.mutex.Unlock()
	words := []byte(played)
	switch status := C.vuthgal_session_go_to(&s.handle, at(words), size(words), C.uint64_t(number)); status {
	case C.VUTHGAL_UNLIKE, C.VUTHGAL_REFUSED:
		return malformed(played)
	case C.VUTHGAL_NO_THREAD:
		return &Fault{Status: NoThread, Line: played}
	default:
		return fault(status, nil)
	}
}

// PlayPlan begins again, and plays a plan of at most so many choices. It returns the schedule, and whether the plan was stopped there. No
// breakpoint stops it. What was played goes on if its schedule stands before the plan. With a fault nothing changes; Refused has a
// Mistake.
func (s *Session) PlayPlan(plan string, most int) (schedule string, stopped bool, err error) {
	schedule, stopped, err = PlanWithin(s.program, []byte(plan), most, false)
	if err == nil {
		err = s.GoTo(schedule, choicesIn(schedule))
	}
	return schedule, stopped, err
}

// enabled are the two words of the library.
func (s *Session) enabled() (turns, expiries uint64) {
	var words [2]C.uint64_t
	C.vuthgal_session_enabled(&s.handle, &words[0], &words[1])
	return uint64(words[0]), uint64(words[1])
}

// Enabled are the choices that would do something now. Every other one would be idle.
func (s *Session) Enabled() []Choice {
	s.mutex.Lock()
	defer s.mutex.Unlock()
	turns, expiries := s.enabled()
	var choices []Choice
	for thread := 0; thread < 64; thread++ {
		if turns>>thread&1 == 1 {
			choices = append(choices, Choice{Thread: thread})
		}
	}
	for thread := 0; thread < 64; thread++ {
		if expiries>>thread&1 == 1 {
			choices = append(choices, Choice{thread, true})
		}
	}
	return choices
}

// Copy is a second session in the same state, with the same breakpoints, which goes on alone. It has nothing of the past to take back.
func (s *Session) Copy() (*Session, error) {
	s.mutex.Lock()
	defer s.mutex.Unlock()
	copied := &Session{program: s.program, Threads: s.Threads}
	if err := fault(C.vuthgal_session_copy(&s.handle, &copied.handle), nil); err != nil {
		return nil, err
	}
	return copied, nil
}

// Other is the schedule of another run of at most so many choices, which makes this choice here: its thread goes on until it waits or
// ends, then come those choices of rest that still do something, and then all threads take turns. Rest has at most 2,000 choices.
func (s *Session) Other(choice Choice, rest string, most int) (string, error) {
	if most < 0 || most > math.MaxUint32 {
		return "", malformed("at most " + strconv.Itoa(most))
	}
	s.mutex.Lock()
	defer s.mutex.Unlock()
	l, err := s.look()
	if err == nil {
		_, err = l.thread(choice.Thread)
	}
	if err != nil {
		return "", err
	}
	words := []byte(rest)
	output, _, err := called(func(r *rooms) C.uint8_t {
		return C.vuthgal_session_other(&s.handle, C.uint8_t(choice.Thread), flag(choice.Expiry), C.uint32_t(most),
			at(words), size(words), at(r.output), size(r.output), &r.outputLength)
	})
	if err, is := err.(*Fault); is && err.Status == Refused {
		return "", malformed(rest)
	}
	return string(output), err
}

// Close frees what the session holds.
func (s *Session) Close() {
	s.mutex.Lock()
	defer s.mutex.Unlock()
	C.vuthgal_session_close(&s.handle)
}
