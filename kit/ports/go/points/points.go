// Package points has places at which a goroutine may stand still until others have gone some steps, so that races of two
// instructions come about (docs/PORTING.md, "Points"). Without POINTS=SEED in the environment a point is one branch.
//
// Put these types in place of those of sync and sync/atomic, and Point before and after whatever else others can see: a
// receive, a close. The adapter calls Burst at `go`. A goroutine has nothing of its own that is found quickly. So the points of
// a burst are numbered, and at some numbers whoever comes there stands.
package points

import (
	"fmt"
	"os"
	"strconv"
	"sync"
	"sync/atomic"
	"syscall"
	"time"
)

// mostIdle: who stands goes on sooner if nobody passes a point from look to look, so often. All others may be waiting for it.
const mostIdle = 40

// longest is how long one stands: on a busy machine a look may take long.
const longest = 20 * time.Millisecond

var (
	seed   uint64 // 0: there are no points; written before there are goroutines
	draws  atomic.Uint64
	passed atomic.Uint64
	stands [3]atomic.Uint64
)

func init() {
	if text := os.Getenv("POINTS"); text != "" {
		number, err := strconv.ParseUint(text, 10, 64)
		if err != nil {
			fmt.Fprintln(os.Stderr, "POINTS has to be a number, and is", text)
			os.Exit(2)
		}
		seed = (2*number + 1) * 0x9e3779b97f4a7c15
	}
}

// random is the next number, from 0, below this one.
func random(below uint64) uint64 {
	state := seed + draws.Add(1)*0x9e3779b97f4a7c15
	state = (state ^ state>>30) * 0xbf58476d1ce4e5b9
	state = (state ^ state>>27) * 0x94d049bb133111eb
	return (state ^ state>>31) % below
}

// some is a random number from 1 up to two to this power; of two sizes each comes as often.
func some(power uint64) uint64 {
	return 1 + random(2<<random(power))
}

// Burst begins the next burst, in which whoever comes to one of three points stands there.
func Burst() {
	if seed == 0 {
		return
	}
	passed.Store(0)
	for i := range stands {
		stands[i].Store(some(8))
	}
}

// Point is such a place.
func Point() {
	if seed != 0 {
		pass()
	}
}

//go:noinline
func pass() {
	number := passed.Add(1)
	if number == stands[0].Load() || number == stands[1].Load() || number == stands[2].Load() {
		stand(number + some(7))
	}
}

// stand lasts until others have passed some points. That isn't a time, so it works on a quiet machine and on a busy one.
func stand(until uint64) {
	nap := syscall.NsecToTimespec(20_000) // not time.Sleep: the processor stays with this thread
	end := time.Now().Add(longest)
	seen, idle := passed.Load(), 0
	for seen < until && idle < mostIdle && time.Now().Before(end) {
		syscall.Nanosleep(&nap, nil)
		now := passed.Load()
		idle++
		if now != seen {
			seen, idle = now, 0
		}
	}
}

// Mutex stands in place of sync.Mutex.
type Mutex struct{ mutex sync.Mutex }

func (m *Mutex) Lock()   { Point(); m.mutex.Lock(); Point() }
func (m *Mutex) Unlock() { Point(); m.mutex.Unlock(); Point() }

// Bool stands in place of atomic.Bool.
type Bool struct{ value atomic.Bool }

func (b *Bool) Load() bool        { Point(); defer Point(); return b.value.Load() }
func (b *Bool) Store(to bool)     { Point(); b.value.Store(to); Point() }
func (b *Bool) Swap(to bool) bool { Point(); defer Point(); return b.value.Swap(to) }
func (b *Bool) CompareAndSwap(old, to bool) bool {
	Point()
	defer Point()
	return b.value.CompareAndSwap(old, to)
}

// Uint64 stands in place of atomic.Uint64.
type Uint64 struct{ value atomic.Uint64 }

func (u *Uint64) Load() uint64           { Point(); defer Point(); return u.value.Load() }
func (u *Uint64) Store(to uint64)        { Point(); u.value.Store(to); Point() }
func (u *Uint64) Swap(to uint64) uint64  { Point(); defer Point(); return u.value.Swap(to) }
func (u *Uint64) Add(more uint64) uint64 { Point(); defer Point(); return u.value.Add(more) }
func (u *Uint64) CompareAndSwap(old, to uint64) bool {
	Point()
	defer Point()
	return u.value.CompareAndSwap(old, to)
}

// Pointer stands in place of atomic.Pointer.
type Pointer[T any] struct{ value atomic.Pointer[T] }

func (p *Pointer[T]) Load() *T      { Point(); defer Point(); return p.value.Load() }
func (p *Pointer[T]) Store(to *T)   { Point(); p.value.Store(to); Point() }
func (p *Pointer[T]) Swap(to *T) *T { Point(); defer Point(); return p.value.Swap(to) }
func (p *Pointer[T]) CompareAndSwap(old, to *T) bool {
	Point()
	defer Point()
	return p.value.CompareAndSwap(old, to)
}
