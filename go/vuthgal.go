// Package vuthgal plays programs of threads that call phasers and barriers: libvuthgal's calls, in this process.
//
// A program is the bytes of a text or of an image, and not the path of a file. Each error is a *Fault.
package vuthgal

// #cgo pkg-config: vuthgal
// #include <vuthgal.h>
import "C"

import (
	"strconv"
	"strings"
	"unsafe"
)

var nowhere byte

// at is where bytes stand.
func at(bytes []byte) *C.uint8_t {
	if len(bytes) == 0 {
		return (*C.uint8_t)(unsafe.Pointer(&nowhere))
	}
	return (*C.uint8_t)(unsafe.Pointer(&bytes[0]))
}

func size(bytes []byte) C.size_t { return C.size_t(len(bytes)) }

// rooms are where a call writes its output and its line, with their lengths.
type rooms struct {
	output, line             []byte
	outputLength, lineLength C.size_t
}

// called makes a call, and makes it again if its output has no room. It returns the output, and whether the status is 1.
func called(call func(r *rooms) C.uint8_t) (output []byte, unlike bool, err error) {
	for r := (&rooms{output: make([]byte, 1<<12), line: make([]byte, C.VUTHGAL_LINE)}); ; {
		status := call(r)
		if int(r.outputLength) <= len(r.output) {
			if int(r.lineLength) < len(r.line) {
				r.line = r.line[:r.lineLength]
			}
			return r.output[:r.outputLength], status == C.VUTHGAL_UNLIKE, fault(status, r.line)
		}
		r.output = make([]byte, r.outputLength)
	}
}

// Run plays a program under a schedule, and returns the trace; with a fault of the schedule, the lines before it.
func Run(program, schedule []byte) (string, error) {
	output, _, err := called(func(r *rooms) C.uint8_t {
		return C.vuthgal_run(at(program), size(program), at(schedule), size(schedule),
			at(r.output), size(r.output), &r.outputLength, at(r.line), size(r.line), &r.lineLength)
	})
	return string(output), err
}

// RunText plays a program's text under the schedule behind its line `.run`, and returns the trace.
func RunText(text []byte) (string, error) {
	output, _, err := called(func(r *rooms) C.uint8_t {
		return C.vuthgal_both(at(text), size(text),
			at(r.output), size(r.output), &r.outputLength, at(r.line), size(r.line), &r.lineLength)
	})
	return string(output), err
}

// Assemble returns the image of a program's text.
func Assemble(text []byte) ([]byte, error) {
	output, _, err := called(func(r *rooms) C.uint8_t {
		return C.vuthgal_asm(at(text), size(text),
			at(r.output), size(r.output), &r.outputLength, at(r.line), size(r.line), &r.lineLength)
	})
	return output, err
}

// List returns the canonical text of a program.
func List(program []byte) (string, error) {
	output, _, err := called(func(r *rooms) C.uint8_t {
		return C.vuthgal_list(at(program), size(program),
			at(r.output), size(r.output), &r.outputLength, at(r.line), size(r.line), &r.lineLength)
	})
	return string(output), err
}

// verdict is the fault that a line such as `differs 3` tells, nil of `same`.
func verdict(told string) error {
	words := strings.Fields(told)
	if len(words) == 1 && words[0] == "same" {
		return nil
	}
	line, err := strconv.Atoi(words[len(words)-1])
	switch {
	case err == nil && words[0] == "differs":
		return &Fault{Status: Differs, Line: "line " + strconv.Itoa(line), At: line}
	case err == nil && words[0] == "not":
		return &Fault{Status: NotATrace, Line: "line " + strconv.Itoa(line), At: line}
	}
	return &Fault{Status: Unknown, Line: told}
}

// Compare compares a trace with the run that it names. The fault is Differs or NotATrace, with the line.
func Compare(program, trace []byte) error {
	output, _, err := called(func(r *rooms) C.uint8_t {
		return C.vuthgal_compare(at(program), size(program), at(trace), size(trace),
			at(r.output), size(r.output), &r.outputLength, at(r.line), size(r.line), &r.lineLength)
	})
	if err != nil {
		return err
	}
	return verdict(string(output))
}

// Choices returns the schedule of a trace; if it is none, NotATrace and the schedule of the lines before the first that is no line.
func Choices(trace []byte) (string, error) {
	output, unlike, err := called(func(r *rooms) C.uint8_t {
		return C.vuthgal_choices(at(trace), size(trace),
			at(r.output), size(r.output), &r.outputLength, at(r.line), size(r.line), &r.lineLength)
	})
	lines := strings.Split(strings.TrimSuffix(string(output), "\n"), "\n")
	if unlike {
		last := len(lines) - 1
		return strings.Join(lines[:last], ""), verdict(lines[last])
	}
	return lines[0], err
}

// Input says what FindMistake looks at besides the program.
type Input uint8

const (
	// InProgram looks at the program alone.
	InProgram Input = C.VUTHGAL_PROGRAM
	// InPlan looks at a plan for it.
	InPlan Input = C.VUTHGAL_PLAN
	// InSchedule looks at a schedule for it.
	InSchedule Input = C.VUTHGAL_SCHEDULE
	// InText looks at the program's text with its schedule behind its line `.run`.
	InText Input = C.VUTHGAL_TEXT
)

// Mistake is where an input is refused, and what helps.
type Mistake struct {
	// Told is the line of the refusal, as the program writes it.
	Told string
	// Input is InProgram, or else InPlan or InSchedule.
	Input Input
	// Line is that of the input, from 1; Column the first byte of the wrong word, from 1. They are 0 if there is none.
	Line, Column, Length int
	// Hint is `near: ..` or `help: ..`, or empty.
	Hint string
}

// FindMistake says where a program is refused, or the steps that input says, and what helps, as a terminal shows it. It is nil if nothing
// is wrong.
func FindMistake(program []byte, input Input, steps []byte) (*Mistake, error) {
	var place C.vuthgal_place
	var told string
	output, _, err := called(func(r *rooms) C.uint8_t {
		status := C.vuthgal_mistake(at(program), size(program), C.uint8_t(input), at(steps), size(steps), &place,
			at(r.output), size(r.output), &r.outputLength, at(r.line), size(r.line), &r.lineLength)
		if status == C.VUTHGAL_REFUSED {
			told = strings.TrimSpace(string(r.line[:r.lineLength]))
		}
		return status
	})
	if told == "" {
		return nil, err
	}
	hint := strings.TrimSpace(string(output))
	return &Mistake{told, Input(place.input), int(place.line), int(place.column), int(place.length), hint}, nil
}

// escaped has the signs of a page in the place of those of a text.
var escaped = strings.NewReplacer("&", "&amp;", "<", "&lt;", ">", "&gt;", "\r", "&#13;")

// Page returns the page that shows a run: app, the text of vuthgal.html, with the program, its schedule and its trace in it. The machine
// in the page plays it again.
func Page(program, schedule []byte, app string) (string, error) {
	trace, err := Run(program, schedule)
	if err != nil {
		return "", err
	}
	listing, err := List(program)
	if err != nil {
		return "", err
	}
	source := string(program)
	if strings.HasPrefix(source, "PBW1") || strings.HasPrefix(source, "PBW2") {
		source = ""
	}
	for _, it := range [][2]string{{"listing", listing}, {"source", source}, {"schedule", strings.Join(strings.Fields(string(schedule)), " ")}, {"trace", trace}} {
		begin := `<pre id="` + it[0] + `">`
		app = strings.Replace(app, begin+"\n</pre>", begin+"\n"+escaped.Replace(it[1])+"</pre>", 1)
	}
	return app, nil
}

// Draw returns a run drawn as text, in lines of at most width bytes, from 60 to 1000.
func Draw(program, schedule []byte, width int) (string, error) {
	if width < 60 || width > 1000 {
		return "", malformed("width " + strconv.Itoa(width))
	}
	output, _, err := called(func(r *rooms) C.uint8_t {
		return C.vuthgal_draw(at(program), size(program), at(schedule), size(schedule), C.uint16_t(width),
			at(r.output), size(r.output), &r.outputLength, at(r.line), size(r.line), &r.lineLength)
	})
	return string(output), err
}

// Debug returns the replies of the debugger to lines of commands.
func Debug(program, commands []byte) (string, error) {
	output, _, err := called(func(r *rooms) C.uint8_t {
		return C.vuthgal_debug(at(program), size(program), at(commands), size(commands),
			at(r.output), size(r.output), &r.outputLength, at(r.line), size(r.line), &r.lineLength)
	})
	return string(output), err
}

// Explain says what the words of a line mean; without words, what can be asked. The fault is NoLine if no line has them.
func Explain(words string) (string, error) {
	text := []byte(words)
	output, _, err := called(func(r *rooms) C.uint8_t {
		return C.vuthgal_explain(at(text), size(text),
			at(r.output), size(r.output), &r.outputLength, at(r.line), size(r.line), &r.lineLength)
	})
	return string(output), err
}

// Expect says whether a state is as an expectation says, as `vuthgal run --expect` decides it: `all`, `ended`, `stuck`, `live`, or
// words of a line of the state, as `t0 waits`.
func Expect(state State, expectation string) (bool, error) {
	text, words := []byte(state.String()), []byte(expectation)
	switch C.vuthgal_expect(at(text), size(text), at(words), size(words)) {
	case C.VUTHGAL_DONE:
		return true, nil
	case C.VUTHGAL_UNLIKE:
		return false, nil
	}
	return false, malformed(expectation)
}

// Version returns the version of the library, and the sum of its sources, a line each.
func Version() string {
	output := make([]byte, 512)
	var length C.size_t
	C.vuthgal_version(at(output), size(output), &length)
	return string(output[:length])
}
