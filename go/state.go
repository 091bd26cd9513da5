package vuthgal

import (
	"fmt"
	"strings"
)

// Word says whether a run can go on.
type Word string

const (
	// Live: some choice can still do something.
	Live Word = "live"
	// Stuck: none can, and some thread hasn't ended.
	Stuck Word = "stuck"
	// All threads have ended or died.
	All Word = "all"
)

// ThreadStatus is what a thread does.
type ThreadStatus string

const (
	Runs   ThreadStatus = "runs"
	Throws ThreadStatus = "throws"
	Waits  ThreadStatus = "waits"
	Ended  ThreadStatus = "ended"
	Died   ThreadStatus = "died"
)

// Entry is an entry of a thread's stack.
type Entry struct {
	// Kind is `C`, a call; `H`, a handler; `A`, a routine; `X`, an action.
	Kind byte
	// Number is the row to return to, or of the handler; the root of a routine; the barrier of an action.
	Number int
}

func (e Entry) String() string { return fmt.Sprintf("%c%d", e.Kind, e.Number) }

// Thread is how a thread stands.
type Thread struct {
	Number, Row int
	Status      ThreadStatus
	// Exception is the one that it throws or died of, else 0.
	Exception   int32
	Interrupted bool
	Registers   [8]int32
	// Stack has the lowest entry first.
	Stack []Entry
	// Out is what it put out, the first value first.
	Out []int32
}

// String is the line of the thread, as a trace has it.
func (t Thread) String() string {
	var text strings.Builder
	fmt.Fprintf(&text, "t%d %d %s", t.Number, t.Row, t.Status)
	if t.Status == Throws || t.Status == Died {
		fmt.Fprintf(&text, ":%d", t.Exception)
	}
	fmt.Fprintf(&text, " %d regs", number(t.Interrupted))
	for _, value := range t.Registers {
		fmt.Fprintf(&text, " %d", value)
	}
	text.WriteString(" stack")
	for _, entry := range t.Stack {
		fmt.Fprintf(&text, " %v", entry)
	}
	text.WriteString(" out")
	for _, value := range t.Out {
		fmt.Fprintf(&text, " %d", value)
	}
	return text.String()
}

func number(set bool) int {
	if set {
		return 1
	}
	return 0
}

// Phaser is how a phaser stands.
type Phaser struct {
	Number int
	// View is what getPhase returns: it is negative once the phaser is terminated.
	View                        int32
	Parties, Arrived, Unarrived int
}

// String is the line of the phaser, as a trace has it.
func (p Phaser) String() string {
	return fmt.Sprintf("p%d %d %d %d %d", p.Number, p.View, p.Parties, p.Arrived, p.Unarrived)
}

// Barrier is how a barrier stands.
type Barrier struct {
	Number, Waiting int
	Broken          bool
}

// String is the line of the barrier, as a trace has it.
func (b Barrier) String() string {
	return fmt.Sprintf("b%d %d %d", b.Number, b.Waiting, number(b.Broken))
}

// State is how all stand. Two states are equal where their texts are.
type State struct {
	Choices, Steps uint64
	Word           Word
	Threads        []Thread
	Phasers        []Phaser
	Barriers       []Barrier
	// Cells are the cells by number. One that the program doesn't have is 0.
	Cells [32]int32
}

// WithoutCounts is the same without the counts of choices and steps. Its text is a key for a map of the states that were seen.
func (s State) WithoutCounts() State {
	s.Choices, s.Steps = 0, 0
	return s
}

// String is the text of the state, as it ends a trace.
func (s State) String() string {
	var text strings.Builder
	fmt.Fprintf(&text, "state %d %d %s\n", s.Choices, s.Steps, s.Word)
	for _, it := range s.Threads {
		fmt.Fprintln(&text, it)
	}
	for _, it := range s.Phasers {
		fmt.Fprintln(&text, it)
	}
	for _, it := range s.Barriers {
		fmt.Fprintln(&text, it)
	}
	for number, value := range s.Cells {
		if value != 0 {
			fmt.Fprintf(&text, "c%d %d\n", number, value)
		}
	}
	return text.String()
}
