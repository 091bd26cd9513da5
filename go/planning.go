package vuthgal

// #include <vuthgal.h>
import "C"

import (
	"math"
	"strconv"
	"strings"
)

// MostChoices is how many choices a plan makes at most.
const MostChoices = 1000000

// Plan returns the schedule that a plan stands for, and whether the plan was stopped at 1,000,000 choices.
func Plan(program, plan []byte) (schedule string, stopped bool, err error) {
	return PlanWithin(program, plan, MostChoices, false)
}

// PlanWithin returns the schedule that a plan stands for, of at most so many choices, and whether the plan was stopped there. With names
// threads have their names: it is a plan, too. A schedule is a plan, so this also writes a schedule by names. The fault Refused has a
// Mistake.
func PlanWithin(program, plan []byte, most int, names bool) (schedule string, stopped bool, err error) {
	if most < 0 || most > math.MaxUint32 {
		return "", false, malformed("at most " + strconv.Itoa(most))
	}
	output, stopped, err := called(func(r *rooms) C.uint8_t {
		return C.vuthgal_plan(at(program), size(program), at(plan), size(plan), C.uint32_t(most), flag(names),
			at(r.output), size(r.output), &r.outputLength, at(r.line), size(r.line), &r.lineLength)
	})
	if err, is := err.(*Fault); is && err.Status == Refused {
		err.Mistake, _ = FindMistake(program, InPlan, plan)
	}
	return strings.TrimSpace(string(output)), stopped, err
}

// choicesIn is how many choices a schedule has.
func choicesIn(schedule string) int {
	choices := 0
	for _, token := range strings.Fields(schedule) {
		count := 1
		if _, repeated, is := strings.Cut(token, "*"); is {
			count, _ = strconv.Atoi(repeated)
		}
		choices += count
	}
	return choices
}

// Orders are the seeds by which orders are made.
type Orders struct {
	// First is the first seed. There are Count, at most 100,000.
	First, Count uint32
	// Limit is the most choices of an order, or 0 for 1,000,000.
	Limit uint32
	// Names says that schedules have the names of threads.
	Names bool
}

// Outcome is a state that runs by seeds ended in.
type Outcome struct {
	// Times is how many runs did.
	Times int
	Word  Word
	// Died says whether a thread died.
	Died bool
	// Seed is that of the first such run, and Schedule its schedule.
	Seed     uint32
	Schedule string
}

func outcome(line string) (Outcome, error) {
	words := strings.SplitN(line+" ", " ", 4)
	if len(words) == 4 && strings.HasPrefix(words[2], "?") {
		word := strings.TrimSuffix(words[1], "+died")
		times, err := strconv.Atoi(words[0])
		seed, wrong := strconv.ParseUint(words[2][1:], 10, 32)
		if err == nil && wrong == nil {
			return Outcome{times, Word(word), word != words[1], uint32(seed), strings.TrimSuffix(words[3], " ")}, nil
		}
	}
	return Outcome{}, &Fault{Status: Unknown, Line: line}
}

// Seeds plays a plan and then an order by each seed, and returns where the runs ended, the most frequent outcome first.
func Seeds(program, plan []byte, orders Orders) ([]Outcome, error) {
	output, _, err := called(func(r *rooms) C.uint8_t {
		return C.vuthgal_seeds(at(program), size(program), at(plan), size(plan),
			C.uint32_t(orders.First), C.uint32_t(orders.Count), C.uint32_t(orders.Limit), flag(orders.Names),
			at(r.output), size(r.output), &r.outputLength, at(r.line), size(r.line), &r.lineLength)
	})
	if err != nil {
		return nil, err
	}
	var outcomes []Outcome
	for _, line := range strings.Split(strings.TrimSuffix(string(output), "\n"), "\n") {
		if line == "" {
			continue
		}
		one, err := outcome(line)
		if err != nil {
			return nil, err
		}
		outcomes = append(outcomes, one)
	}
	return outcomes, nil
}

func flag(set bool) C.uint8_t {
	if set {
		return 1
	}
	return 0
}
