package vuthgal

import (
	"errors"
	"os"
	"path/filepath"
	"reflect"
	"strings"
	"testing"
)

func read(t *testing.T, name string) []byte {
	text, err := os.ReadFile("../examples/" + name)
	if err != nil {
		t.Fatal(err)
	}
	return text
}

// same fails where what a call returns isn't what is wanted.
func same(t *testing.T, got, wanted any) {
	t.Helper()
	if !reflect.DeepEqual(got, wanted) {
		t.Fatalf("%v, and wanted is %v", got, wanted)
	}
}

// fails fails where an error isn't a *Fault of this status.
func fails(t *testing.T, err error, status Status) {
	t.Helper()
	var fault *Fault
	if !errors.Is(err, status) || !errors.As(err, &fault) || fault.Status != status || err.Error() == "" {
		t.Fatalf("%v, and wanted is %v", err, status)
	}
}

// done is a value without an error.
func done[T any](value T, err error) func(t *testing.T) T {
	return func(t *testing.T) T {
		t.Helper()
		if err != nil {
			t.Fatal(err)
		}
		return value
	}
}

func TestCalls(t *testing.T) {
	program, schedule, trace := read(t, "meeting.asm"), read(t, "meeting.schedule"), read(t, "meeting.trace")
	image := done(Assemble(program))(t)
	same(t, done(Run(program, schedule))(t), string(trace))
	same(t, done(Run(image, schedule))(t), string(trace))
	same(t, done(RunText(read(t, "two-threads-meet.txt")))(t), string(trace))
	same(t, strings.HasPrefix(done(List(image))(t), ".phaser p0 2\n"), true)
	same(t, done(Choices(trace))(t), "t0 t1 t0*3 t1*2")
	same(t, Compare(program, trace), nil)
	same(t, strings.HasSuffix(done(Page(program, schedule, "<pre id=\"trace\">\n</pre>"))(t), "</pre>"), true)
	same(t, strings.HasPrefix(done(Draw(program, schedule, 80))(t), "choice  a"), true)
	same(t, done(Debug(program, []byte("k 1\ng t0 t1 t0 t0\nb\nq\n")))(t), "break 1\nat 2\nback 1\n")
	same(t, strings.Contains(done(Explain("memory"))(t), "memory"), true)
	same(t, len(strings.Split(Version(), "\n")), 3)
}

func TestFaults(t *testing.T) {
	program, trace := read(t, "meeting.asm"), string(read(t, "meeting.trace"))
	_, err := Run([]byte("ldi r8 1\n"), nil)
	fails(t, err, Refused)
	same(t, err.Error(), "refused asm 1 5")
	same(t, strings.Contains(err.(*Fault).Meaning(), "BadRegister"), true)
	_, err = Run(make([]byte, 1<<24+1), nil)
	fails(t, err, TooLong)
	same(t, err.Error(), "an input has more bytes than it may have")
	played, err := Run(program, []byte("t0 t99"))
	fails(t, err, Refused)
	same(t, played, "1 t0 0 wait\n")
	err = Compare(program, []byte(strings.Replace(trace, "= 1", "= 2", 1)))
	fails(t, err, Differs)
	same(t, err.(*Fault).At, 2)
	err = Compare(program, []byte("no"))
	fails(t, err, NotATrace)
	before, err := Choices([]byte("1 t0 0 end\nhm\n"))
	fails(t, err, NotATrace)
	same(t, []any{before, err.(*Fault).At}, []any{"t0", 2})
	_, err = Explain("hm hm")
	fails(t, err, NoLine)
	for _, width := range []int{59, 1001, -1} {
		_, err = Draw(program, nil, width)
		fails(t, err, Malformed)
	}
	_, err = Open([]byte("ldi r8 1\n"))
	fails(t, err, Refused)
}

func TestPlans(t *testing.T) {
	program := read(t, "meeting.asm")
	schedule, stopped, err := Plan(program, []byte("a. b. a."))
	same(t, []any{schedule, stopped, err}, []any{"t0 t1*3 t0*3", false, nil})
	schedule, stopped, err = PlanWithin(program, []byte("t0 t1*3 t0*9"), 5, true)
	same(t, []any{schedule, stopped, err}, []any{"a b*3 a", true, nil})
	_, _, err = PlanWithin(program, nil, -1, false)
	fails(t, err, Malformed)
	_, _, err = Plan(program, []byte("hm"))
	fails(t, err, Refused)
	outcomes := done(Seeds(program, nil, Orders{First: 3, Count: 40, Names: true}))(t)
	same(t, len(outcomes), 1)
	same(t, []any{outcomes[0].Times, outcomes[0].Word, outcomes[0].Died, outcomes[0].Seed}, []any{40, All, false, uint32(3)})
	same(t, len(done(Seeds(program, nil, Orders{}))(t)), 0)
	for _, line := range []string{"", "2", "2 stuck", "2 stuck 7 a", "x stuck ?7 a", "2 stuck ?y a"} {
		_, err = outcome(line)
		fails(t, err, Unknown)
	}
	same(t, done(outcome("2 stuck+died ?7 a b*2"))(t), Outcome{2, Stuck, true, 7, "a b*2"})
}

// Each line and state of a session is as the trace of an example has it.
func TestTraces(t *testing.T) {
	seen := 0
	for _, pattern := range []string{"../examples/*.trace", "../examples/*/*.trace"} {
		files, _ := filepath.Glob(pattern)
		for _, file := range files {
			trace := string(done(os.ReadFile(file))(t))
			program, err := os.ReadFile(strings.TrimSuffix(file, "trace") + "asm")
			if err != nil {
				continue
			}
			session := done(Open(program))(t)
			lines, state, _ := strings.Cut(trace, "state ")
			for _, line := range strings.SplitAfter(strings.TrimSuffix(lines, "\n"), "\n") {
				line = strings.TrimSuffix(line, "\n")
				word := strings.Fields(line)[1]
				choice := Choice{int(word[1] - '0'), word[0] == 'x'}
				same(t, choice.String(), word)
				played, err := session.Play(choice)
				if strings.HasSuffix(line, "none") {
					fails(t, err, NoThread)
				} else {
					same(t, []any{played.String(), err}, []any{line, nil})
				}
			}
			got := done(session.State())(t)
			same(t, got.String(), "state "+state)
			same(t, len(session.Enabled()) == 0, got.Word != Live)
			session.Close()
			seen++
		}
	}
	if seen < 10 {
		t.Fatal(seen)
	}
}

func TestMistakes(t *testing.T) {
	program := read(t, "meeting.asm")
	same(t, done(FindMistake(program, InProgram, nil))(t) == nil, true)
	same(t, *done(FindMistake([]byte("ldi r8 1\n"), InProgram, nil))(t),
		Mistake{"refused asm 1 5", InProgram, 1, 5, 2, "help: the registers are r0 to r7: a small r and one digit"})
	same(t, *done(FindMistake(program, InPlan, []byte("aa.")))(t), Mistake{"refused plan 1 4", InPlan, 1, 1, 3, "near: a."})
	same(t, *done(FindMistake(program, InSchedule, []byte("t0\nt1;")))(t),
		Mistake{"refused schedule 1 5", InSchedule, 2, 3, 1, "help: a schedule can't have comments; a program text can, above its line `.run`"})
}

func TestPlayPlan(t *testing.T) {
	session := done(Open(read(t, "meeting.asm")))(t)
	done(session.Step(1))(t)
	done(session.Command("k 1"))(t)
	schedule, stopped, err := session.PlayPlan("a. b. a.", MostChoices)
	same(t, []any{schedule, stopped, err}, []any{"t0 t1*3 t0*3", false, nil})
	same(t, done(session.State())(t).Choices, uint64(7))
	_, stopped, err = session.PlayPlan("a b*3 a*9", 5)
	same(t, []any{stopped, err}, []any{true, nil})
	_, _, err = session.PlayPlan("a.\n(b. aa)*2", 9)
	fails(t, err, Refused)
	same(t, *err.(*Fault).Mistake, Mistake{"refused plan 2 4", InPlan, 2, 5, 2, "near: a"})
	_, _, err = session.PlayPlan("a", -1)
	fails(t, err, Malformed)
	same(t, done(session.State())(t).Choices, uint64(5))
	copied := done(session.Copy())(t)
	schedule, _, err = copied.PlayPlan("t0 t1*3 b.", 9)
	same(t, []any{schedule, err}, []any{"t0 t1*3", nil})
	session.Close()
	_, _, err = session.PlayPlan("a", 1)
	fails(t, err, Closed)
}

func TestSession(t *testing.T) {
	session := done(Open(read(t, "meeting.asm")))(t)
	same(t, session.Threads, []string{"a", "b"})
	same(t, done(session.Thread("b"))(t), 1)
	same(t, session.Enabled(), []Choice{{Thread: 0}, {Thread: 1}})
	same(t, done(session.Step(0))(t), Line{Step: 1, What: DidWait})
	same(t, session.Enabled(), []Choice{{Thread: 1}})
	same(t, []string{done(session.WaitsAt(0))(t), done(session.WaitsAt(1))(t)}, []string{"p0", ""})
	same(t, done(session.Other(Choice{Thread: 1}, "t0*3", 100))(t), "t1*3 t0*3")

	copied := done(session.Copy())(t)
	seen := map[Fingerprint]bool{done(session.Fingerprint())(t): true}
	same(t, seen[done(copied.Fingerprint())(t)], true)
	fails(t, copied.Back(), NoHistory)
	line := done(copied.Step(1))(t)
	same(t, []any{line.What, line.Value, line.Mark, line.View}, []any{DidResult, int32(1), "+p0", int32(1)})
	same(t, seen[done(copied.Fingerprint())(t)], false)
	same(t, done(session.State())(t).Choices, uint64(1))
	same(t, copied.Back(), nil)
	same(t, done(Expect(done(copied.State())(t), "t0 waits"))(t), true)
	same(t, done(Expect(done(copied.State())(t), "all"))(t), false)
	_, err := Expect(State{}, "hm")
	fails(t, err, Malformed)

	same(t, session.GoTo("t0 t1 t0", 2), nil)
	same(t, done(session.State())(t).Choices, uint64(2))
	same(t, session.GoTo("t0 t1 t0", 0), nil)
	same(t, done(session.State())(t).Choices, uint64(0))
	same(t, session.GoTo("t0", 1), nil)
	fails(t, session.GoTo("t0", 2), Malformed)
	fails(t, session.GoTo("zz", 0), Malformed)
	fails(t, session.GoTo("t9", 1), NoThread)
	fails(t, session.GoTo("t0", -1), Malformed)
	same(t, done(session.State())(t).Choices, uint64(1))

	same(t, done(session.Command("k 1"))(t), "break 1\n")
	same(t, done(session.Go("t1 t9"))(t), Gone{"at", 1, ""})
	same(t, done(session.Go("t9"))(t), Gone{"fault", 0, "none"})
	for _, thread := range []int{-1, 2, 63, 64, 256, 300} {
		_, err := session.Step(thread)
		fails(t, err, NoThread)
		_, err = session.WaitsAt(thread)
		fails(t, err, NoThread)
		_, err = session.Other(Choice{Thread: thread}, "", 10)
		fails(t, err, NoThread)
	}
	_, err = session.Thread("c")
	fails(t, err, NoThread)
	_, err = session.Command("hm")
	fails(t, err, Malformed)
	_, err = session.Go("zz")
	fails(t, err, Malformed)
	_, err = session.Other(Choice{}, "zz", 10)
	fails(t, err, Malformed)

	copied.Close()
	session.Close()
	session.Close()
	_, err = session.Step(0)
	fails(t, err, Closed)
	_, err = session.State()
	fails(t, err, Closed)
	fails(t, session.Back(), Closed)
	_, err = session.Copy()
	fails(t, err, Closed)
	same(t, len(session.Enabled()), 0)
}
