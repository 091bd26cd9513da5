package vuthgal

// #include <vuthgal.h>
import "C"

import (
	"fmt"
	"strconv"
	"strings"
)

// Choice is who goes: the turn of a thread, `t0`, or the time-out of its wait, `x0`.
type Choice struct {
	Thread int
	Expiry bool
}

func (c Choice) String() string {
	if c.Expiry {
		return "x" + strconv.Itoa(c.Thread)
	}
	return "t" + strconv.Itoa(c.Thread)
}

// What is what a choice did, by its word in a trace.
type What string

const (
	DidIdle   What = "idle"
	DidOK     What = "ok"
	DidResult What = "="
	DidOut    What = "out"
	DidWait   What = "wait"
	DidThrow  What = "throw"
	DidEnter  What = "enter"
	DidUnwind What = "unwind"
	DidCatch  What = "catch"
	DidDie    What = "die"
	DidEnd    What = "end"
)

var whats = [...]What{DidIdle, DidOK, DidResult, DidOut, DidWait, DidThrow, DidEnter, DidUnwind, DidCatch, DidDie, DidEnd}

// HasValue says whether a number stands behind the word.
func (w What) HasValue() bool {
	switch w {
	case DidResult, DidOut, DidThrow, DidCatch, DidDie:
		return true
	}
	return false
}

// Line is a line of a trace: what a choice did. Two are equal where their texts are.
type Line struct {
	// Step is the number of the choice, from 1.
	Step   uint64
	Choice Choice
	// Row is the row at which the thread stood.
	Row  int
	What What
	// Value is the number behind `=`, `out`, `throw`, `catch` and `die`, else 0.
	Value int32
	// Mark is `+p0`, `+b0` or `-b0`, the root that ended a phase, the barrier that tripped or broke; else it is empty.
	Mark string
	// View is the view behind `+p0`, else 0.
	View int32
}

// String is the line, as a trace has it.
func (l Line) String() string {
	var text strings.Builder
	fmt.Fprintf(&text, "%d %v %d %s", l.Step, l.Choice, l.Row, l.What)
	if l.What.HasValue() {
		fmt.Fprintf(&text, " %d", l.Value)
	}
	if l.Mark != "" {
		fmt.Fprintf(&text, " %s", l.Mark)
	}
	if strings.HasPrefix(l.Mark, "+p") {
		fmt.Fprintf(&text, " %d", l.View)
	}
	return text.String()
}

// line is that of an event.
func line(choice Choice, event *C.vuthgal_event) (Line, error) {
	if int(event.what) >= len(whats) {
		return Line{}, &Fault{Status: Unknown, Line: fmt.Sprintf("event %d", event.what)}
	}
	line := Line{Step: uint64(event.number), Choice: choice, Row: int(event.row), What: whats[event.what]}
	if line.What.HasValue() {
		line.Value = int32(event.value)
	}
	switch event.mark {
	case C.VUTHGAL_PHASE_ENDED:
		line.Mark, line.View = "+p"+strconv.Itoa(int(event.object)), int32(event.view)
	case C.VUTHGAL_TRIPPED:
		line.Mark = "+b" + strconv.Itoa(int(event.object))
	case C.VUTHGAL_BROKE:
		line.Mark = "-b" + strconv.Itoa(int(event.object))
	}
	return line, nil
}
