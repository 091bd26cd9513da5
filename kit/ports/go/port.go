// Speaks the port protocol (kit/PROTOCOL.md, "Port protocol") for the phaser and the barrier of this folder.
//
//	(cd kit/ports/go && go build -o /tmp/port .)
//	kit/play --port /tmp/port kit/cases
//
// Another port in Go makes its own types in make, and calls them in phaserCall and barrierCall; the rest stays.
package main

import (
	"bufio"
	"errors"
	"fmt"
	"os"
	"runtime"
	"runtime/debug"
	"strconv"
	"strings"
	"sync"
	"sync/atomic"
	"syscall"
	"time"

	"port/points"
)

// processors are as many as threads may spin at once: who spins keeps one, whatever the machine has.
const processors = 72

// longestLine is how many bytes a command may have; a Scanner alone takes no more than 64 KiB.
const longestLine = 1 << 24

var writing sync.Mutex

// say writes a line at once. Many threads have something to say.
func say(line string) {
	writing.Lock()
	defer writing.Unlock()
	os.Stdout.WriteString(line + "\n")
}

var begin = time.Now()

// now is the present, in nanoseconds.
func now() int64 { return int64(time.Since(begin)) }

func pause(length int64) {
	for until := now() + length; length > 0 && now() < until; {
	}
}

// through is what an OnAdvance or an action throws where the player says so.
type through int32

func (t through) Error() string { return fmt.Sprint("through ", int32(t)) }

// call is ready to be made by whichever thread; it answers what it returned, and whether it has a value.
type call func(t *Thread) (value int32, hasValue bool, err error)

// outcome is what became of a call, in the protocol's words.
func outcome(t *Thread, made call) string {
	value, hasValue, err := made(t)
	var thrown through
	switch {
	case errors.As(err, &thrown):
		return "through " + strconv.Itoa(int(thrown))
	case errors.Is(err, ErrIllegalState):
		return "throw 1"
	case errors.Is(err, ErrIllegalArgument):
		return "throw 2"
	case errors.Is(err, ErrInterrupted):
		return "throw 3"
	case errors.Is(err, ErrBrokenBarrier):
		return "throw 4"
	case errors.Is(err, ErrTimedOut):
		return "throw 5"
	case err != nil:
		return "fault " + err.Error()
	case hasValue:
		return "= " + strconv.Itoa(int(value))
	}
	return "ok"
}

// ---------------------------------------------------------------- threads

// gate lets the threads of a burst begin at once. They spin, since to wake up takes longer than a call.
type gate struct{ missing atomic.Int32 }

func (g *gate) pass() {
	alone := now() + 100_000
	g.missing.Add(-1)
	for g.missing.Load() > 0 {
		if now() > alone {
			syscall.RawSyscall(syscall.SYS_SCHED_YIELD, 0, 0, 0)
		}
	}
}

type step struct {
	number      int
	pauseBefore int64
	made        call
}

// order is what a thread is told to do: a call, a list behind a gate, or else to end the OnAdvance or action in which it stands.
type order struct {
	made   call
	list   *gate
	number int32
	throws bool
}

// actor is a thread of a case: it makes the calls that it is told to make, also in the middle of an OnAdvance or an action.
type actor struct {
	*Thread
	number int
	orders chan order
	fence  atomic.Int32
	inList bool // the thread's own, as entered
	// what was entered in the present step of a list, in lines
	entered string

	own     sync.Mutex
	steps   []step // the reader's until `go`, then the thread's
	lines   string
	present string // the step in which it is, and its begin
}

func startActor(number int) *actor {
	a := &actor{Thread: NewThread(), number: number, orders: make(chan order, 1_000)}
	go func() {
		runtime.LockOSThread() // a thread of the system, which the player sees sleep or run
		a.serve()
	}()
	return a
}

// serve makes calls until it is told to end what it stands in; it answers what that is to answer.
func (a *actor) serve() (int32, error) {
	for each := range a.orders {
		switch {
		case each.made != nil:
			say(fmt.Sprint(a.number, " ", outcome(a.Thread, each.made)))
		case each.list != nil:
			a.makeList(each.list)
		case each.throws:
			return 0, through(each.number)
		default:
			return each.number, nil
		}
	}
	panic("the orders have an end")
}

// enter stands at the beginning of an OnAdvance or an action, until it is told how that ends. In a list nobody is asked: it goes
// by the plan, and answers false.
func (a *actor) enter(what string, does plan) (asked bool, number int32, err error) {
	line := fmt.Sprint(a.number, " enter ", what)
	if a.inList {
		a.entered += line + "\n"
		pause(does.lasts)
		for _, each := range does.inside {
			begun := now()
			answer := outcome(a.Thread, each.made)
			a.entered += fmt.Sprint(a.number, " did ", each.number, " ", begun, " ", now(), " ", answer, "\n")
		}
		return false, 0, nil
	}
	say(line)
	number, err = a.serve()
	return true, number, err
}

// makeList reads the clock outside two fences: what a call has done is seen by whoever begins after its end.
func (a *actor) makeList(at *gate) {
	a.own.Lock()
	steps := a.steps
	a.steps = nil
	a.own.Unlock()
	a.inList = true
	at.pass()
	for _, each := range steps {
		pause(each.pauseBefore)
		a.entered = ""
		begun := now()
		a.tell("", fmt.Sprint(a.number, " began ", each.number, " ", begun, "\n"))
		a.fence.Add(1)
		answer := outcome(a.Thread, each.made)
		a.fence.Add(1)
		ended := now()
		a.tell(fmt.Sprint(a.entered, a.number, " did ", each.number, " ", begun, " ", ended, " ", answer, "\n"), "")
	}
	a.inList = false
	a.own.Lock()
	lines := a.lines
	a.lines = ""
	a.own.Unlock()
	say(fmt.Sprint(lines, a.number, " end"))
}

func (a *actor) tell(lines, present string) {
	a.own.Lock()
	a.lines += lines
	a.present = present
	a.own.Unlock()
}

// soFar is what it has done of a list that hasn't ended.
func (a *actor) soFar() string {
	a.own.Lock()
	defer a.own.Unlock()
	return a.lines + a.present
}

// ---------------------------------------------------------------- objects

// plan is what an OnAdvance or an action does in a list: how long it lasts; the calls that it makes; then from which phase on it
// answers true, or never, where that is negative; or what it throws, if it isn't 0.
type plan struct {
	lasts  int64
	number int32
	inside []step
}

// The objects of the case, and the plans of the burst by their numbers. The reader of commands makes them while no thread is
// inside a call.
var (
	phasers  []*Phaser
	barriers []*CyclicBarrier
	advances = map[int]plan{}
	actions  = map[int]plan{}
	actors   = map[int]*actor{}
	byThread sync.Map           // the actor of each thread
	listed   = map[int]*actor{} // who has a list, and wasn't told to go
	reader   = NewThread()
)

func actorOf(t *Thread) *actor {
	found, _ := byThread.Load(t)
	return found.(*actor)
}

func named(number int) *actor {
	a := actors[number]
	if a == nil {
		a = startActor(number)
		actors[number] = a
		byThread.Store(a.Thread, a)
	}
	return a
}

func plansOf(phaser bool) map[int]plan {
	if phaser {
		return advances
	}
	return actions
}

func askingAdvance(number int) OnAdvance {
	return func(t *Thread, phase, parties int32) (bool, error) {
		does := advances[number]
		asked, answer, err := actorOf(t).enter(fmt.Sprint("phaser ", number, " ", phase, " ", parties), does)
		if asked {
			return answer != 0, err
		}
		return does.number >= 0 && (phase >= does.number || parties == 0), nil
	}
}

func askingAction(number int) Action {
	return func(t *Thread) error {
		does := actions[number]
		asked, _, err := actorOf(t).enter(fmt.Sprint("barrier ", number), does)
		if !asked && does.number != 0 {
			return through(does.number)
		}
		return err
	}
}

func beginCase() {
	phasers, barriers = nil, nil
	advances, actions = map[int]plan{}, map[int]plan{}
	for _, a := range actors {
		a.ClearInterrupted()
	}
}

// makeObject may have to wait, and the reader with it, where a phaser's parent is about to end its phase. No case asks for that.
func makeObject(command string, words []string) error {
	if command == "barrier" {
		var action Action
		if words[2] == "asked" {
			action = askingAction(len(barriers))
		}
		barrier, err := NewCyclicBarrier(int32(number(words[1])), action)
		if err == nil {
			barriers = append(barriers, barrier)
		}
		return err
	}
	var parent *Phaser
	if words[1] != "-1" {
		parent = phasers[number(words[1])]
	}
	var onAdvance OnAdvance
	if words[4] == "asked" {
		onAdvance = askingAdvance(len(phasers))
	}
	phaser, err := NewPhaser(reader, parent, int32(number(words[2])), int32(number(words[3])), onAdvance)
	if err == nil {
		phasers = append(phasers, phaser)
	}
	return err
}

func numberOf(phaser *Phaser) int32 {
	for at, each := range phasers {
		if each == phaser {
			return int32(at)
		}
	}
	return -1
}

func number(word string) int64 {
	value, err := strconv.ParseInt(word, 10, 64)
	if err != nil {
		panic(word + " is no number")
	}
	return value
}

func valued(value int32, err error) (int32, bool, error) { return value, true, err }

func truth(yes bool) (int32, bool, error) {
	if yes {
		return 1, true, nil
	}
	return 0, true, nil
}

// callOf is a call, ready to be made; also the interrupt that a list may hold.
func callOf(words []string) call {
	switch words[0] {
	case "interrupted":
		return func(t *Thread) (int32, bool, error) { return truth(t.ClearInterrupted()) }
	case "isInterrupted":
		return func(t *Thread) (int32, bool, error) { return truth(t.IsInterrupted()) }
	case "interrupt":
		target := named(int(number(words[1])))
		return func(*Thread) (int32, bool, error) {
			target.Interrupt()
			return 0, false, nil
		}
	case "await", "reset", "isBroken", "getNumberWaiting", "getParties":
		return barrierCall(words[0], barriers[number(words[1])], timeOf(words, 2))
	}
	operand := int32(0)
	if len(words) > 2 {
		operand = int32(number(words[2]))
	}
	return phaserCall(words[0], phasers[number(words[1])], operand, timeOf(words, 3))
}

// timeOf is the time behind a call, which begins when the call does.
func timeOf(words []string, at int) func() Time {
	if len(words) <= at {
		return Endless
	}
	length := time.Duration(number(words[at]))
	return func() Time { return TimeOf(length) }
}

func phaserCall(method string, phaser *Phaser, operand int32, length func() Time) call {
	return func(t *Thread) (int32, bool, error) {
		switch method {
		case "register":
			return valued(phaser.BulkRegister(t, 1))
		case "bulkRegister":
			return valued(phaser.BulkRegister(t, operand))
		case "arrive":
			return valued(phaser.Arrive(t, false))
		case "arriveAndDeregister":
			return valued(phaser.Arrive(t, true))
		case "arriveAndAwaitAdvance":
			return valued(phaser.ArriveAndAwaitAdvance(t))
		case "awaitAdvance":
			return valued(phaser.AwaitAdvance(t, operand))
		case "awaitAdvanceInterruptibly":
			return valued(phaser.AwaitAdvanceInterruptibly(t, operand, length()))
		case "forceTermination":
			phaser.ForceTermination()
			return 0, false, nil
		case "getPhase":
			return phaser.Phase(), true, nil
		case "getRegisteredParties":
			return phaser.RegisteredParties(), true, nil
		case "getArrivedParties":
			return phaser.ArrivedParties(), true, nil
		case "getUnarrivedParties":
			return phaser.UnarrivedParties(), true, nil
		case "isTerminated":
			return truth(phaser.IsTerminated())
		case "getParent":
			return numberOf(phaser.Parent()), true, nil
		case "getRoot":
			return numberOf(phaser.Root()), true, nil
		}
		return 0, false, errors.New("there is no " + method)
	}
}

func barrierCall(method string, barrier *CyclicBarrier, length func() Time) call {
	return func(t *Thread) (int32, bool, error) {
		switch method {
		case "await":
			return valued(barrier.Await(t, length()))
		case "reset":
			return 0, false, barrier.Reset(t)
		case "isBroken":
			return truth(barrier.IsBroken(t))
		case "getNumberWaiting":
			return valued(barrier.NumberWaiting(t))
		}
		return barrier.Parties(), true, nil
	}
}

// ---------------------------------------------------------------- the reader of commands

func addToList(words []string) {
	a := named(int(number(words[0])))
	a.steps = append(a.steps, step{int(number(words[1])), number(words[2]), callOf(words[3:])})
	listed[a.number] = a
}

func goAll() {
	points.Burst()
	at := &gate{}
	at.missing.Store(int32(len(listed)))
	for _, a := range listed {
		a.orders <- order{list: at}
	}
	listed = map[int]*actor{}
}

func soFar() string {
	lines := ""
	for _, a := range actors {
		lines += a.soFar()
	}
	return lines + "ok"
}

// live is how many bytes are in use behind a collection.
func live() string {
	runtime.GC()
	debug.FreeOSMemory()
	var memory runtime.MemStats
	runtime.ReadMemStats(&memory)
	return fmt.Sprint("live ", memory.HeapAlloc)
}

func carryOut(command string, words []string) {
	switch command {
	case "case":
		beginCase()
		say("ok")
	case "phaser", "barrier":
		say(outcome(reader, func(*Thread) (int32, bool, error) { return 0, false, makeObject(command, words) }))
	case "lists":
		say("ok")
	case "live":
		say(live())
	case "so-far":
		say(soFar())
	case "advance", "action":
		plans := plansOf(command == "advance")
		at := int(number(words[0]))
		plans[at] = plan{number(words[1]), int32(number(words[2])), plans[at].inside}
	case "inside":
		plans := plansOf(words[0] == "phaser")
		at := int(number(words[1]))
		does := plans[at]
		does.inside = append(does.inside, step{number: int(number(words[2])), made: callOf(words[3:])})
		plans[at] = does
		say("ok")
	case "list":
		addToList(words)
	case "go":
		goAll()
	case "call":
		named(int(number(words[0]))).orders <- order{made: callOf(words[1:])}
	case "interrupt":
		named(int(number(words[0]))).Interrupt()
	default:
		named(int(number(words[0]))).orders <- order{number: int32(number(words[1])), throws: command == "throw"}
	}
}

func main() {
	runtime.GOMAXPROCS(processors)
	lines := bufio.NewScanner(os.Stdin)
	lines.Buffer(nil, longestLine)
	for lines.Scan() {
		words := strings.Split(lines.Text(), " ")
		carryOut(words[0], words[1:])
	}
	if err := lines.Err(); err != nil {
		fmt.Fprintln(os.Stderr, "standard input:", err)
		os.Exit(1)
	}
	os.Exit(0) // whatever the threads do
}
