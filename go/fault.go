package vuthgal

// #include <vuthgal.h>
import "C"

import (
	"strconv"
	"strings"
)

// Status says why a call doesn't do as it was asked. Each is an error, so that errors.Is(err, vuthgal.NoThread) asks for it.
type Status int

const (
	// NoLine: words to be explained are those of no line.
	NoLine Status = C.VUTHGAL_NO_LINE
	// Refused: an input is refused. Fault.Line is the line of it.
	Refused Status = C.VUTHGAL_REFUSED
	// Memory: out of memory. What is returned is a beginning of the whole.
	Memory Status = C.VUTHGAL_MEMORY
	// TooLong: an input has more bytes than it may have.
	TooLong Status = C.VUTHGAL_TOO_LONG
	// Closed: the session is closed.
	Closed Status = C.VUTHGAL_CLOSED
	// NoThread: there is no such thread.
	NoThread Status = C.VUTHGAL_NO_THREAD
	// StepLimit: the session has done all its steps: 1,000,000,000 of them, or 1,000,000,000,000 choices.
	StepLimit Status = C.VUTHGAL_LIMIT
	// NoHistory: no choice is kept that could be taken back.
	NoHistory Status = -1
	// Malformed: a text is no command, no schedule or no expectation, or a number is none that the call takes.
	Malformed Status = -2
	// Differs: a trace isn't that of the run. Fault.At is the first line that differs, from 1.
	Differs Status = -3
	// NotATrace: Fault.At is the first line that is no line of a trace, from 1.
	NotATrace Status = -4
	// Unknown: the library answers what this package doesn't know.
	Unknown Status = -5
)

var meanings = map[Status]string{
	NoLine:    "no line has these words",
	Refused:   "refused",
	Memory:    "memory",
	TooLong:   "an input has more bytes than it may have",
	Closed:    "the session is closed",
	NoThread:  "there is no such thread",
	StepLimit: "the session has done all its steps",
	NoHistory: "no choice is kept that could be taken back",
	Malformed: "this can't be read",
	Differs:   "the trace differs",
	NotATrace: "it is no trace",
	Unknown:   "the library answers what isn't known",
}

func (s Status) Error() string { return meanings[s] }

// Fault is what ends a call that doesn't do as it was asked.
type Fault struct {
	Status Status
	// Line is the line of an input that is refused, or what says more of another fault.
	Line string
	// At is the line of a trace that isn't as it should be, from 1.
	At int
	// Mistake is where a plan is refused, and what helps.
	Mistake *Mistake
}

// Error is the line of an input that is refused, or what is wrong.
func (f *Fault) Error() string {
	switch {
	case f.Line == "":
		return f.Status.Error()
	case f.Status == Refused:
		return f.Line
	}
	return f.Status.Error() + ": " + f.Line
}

// Unwrap is the status.
func (f *Fault) Unwrap() error { return f.Status }

// Meaning is what the line of an input that is refused means, and what helps, as `vuthgal explain` says it.
func (f *Fault) Meaning() string {
	if f.Status != Refused {
		return ""
	}
	meaning, _ := Explain(f.Line)
	return meaning
}

// fault is that of a status and a line of the library, nil where it did as it was asked.
func fault(status C.uint8_t, line []byte) error {
	switch Status(status) {
	case C.VUTHGAL_DONE, C.VUTHGAL_UNLIKE:
		return nil
	case Refused:
		return &Fault{Status: Refused, Line: strings.TrimSpace(string(line))}
	case NoLine, Memory, TooLong, Closed, NoThread, StepLimit:
		return &Fault{Status: Status(status)}
	}
	return &Fault{Status: Unknown, Line: strconv.Itoa(int(status))}
}

func malformed(text string) error { return &Fault{Status: Malformed, Line: strconv.Quote(text)} }
