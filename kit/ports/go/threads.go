package main

// Threads with an interrupted status, which goroutines don't have, times, and what the calls of a port throw.

import (
	"errors"
	"math"
	"time"

	"port/points"
)

// What a call throws.
var (
	ErrIllegalState    = errors.New("the state of the object doesn't allow the call")
	ErrIllegalArgument = errors.New("a number that the call doesn't take")
	ErrInterrupted     = errors.New("the thread was interrupted")
	ErrBrokenBarrier   = errors.New("the barrier is broken, or this generation of it ended as broken")
	ErrTimedOut        = errors.New("the time of a wait is over")
)

// Thread is whoever calls a phaser or a barrier. A goroutine can't be asked who it is, so each call has its thread as an
// argument.
type Thread struct {
	interrupted points.Bool
	wakes       chan struct{} // has room for one: who waits interruptibly looks at the status
}

func NewThread() *Thread {
	return &Thread{wakes: make(chan struct{}, 1)}
}

// Interrupt sets the status, and wakes the thread where it waits interruptibly.
func (t *Thread) Interrupt() {
	t.interrupted.Store(true)
	select {
	case t.wakes <- struct{}{}:
	default: // it will look already
	}
}

func (t *Thread) IsInterrupted() bool { return t.interrupted.Load() }

// ClearInterrupted says whether the status was set; it is clear then.
func (t *Thread) ClearInterrupted() bool { return t.interrupted.Swap(false) }

// Time is how long a wait may take. Nothing is added to its length, so that the longest one doesn't overflow.
type Time struct {
	begun  time.Time
	length time.Duration
	ends   bool
}

// Endless is the time of a wait that has none.
func Endless() Time { return Time{length: math.MaxInt64} }

func TimeOf(length time.Duration) Time {
	return Time{begun: time.Now(), length: length, ends: true}
}

func (t Time) left() time.Duration {
	if !t.ends {
		return t.length
	}
	return t.length - time.Since(t.begun)
}

func (t Time) IsOver() bool { return t.ends && t.left() <= 0 }

// Monitor is a lock, and a channel that is closed whenever something changes that somebody may wait for; a new one takes its
// place.
type Monitor struct {
	points.Mutex
	changed chan struct{}
}

func NewMonitor() *Monitor {
	return &Monitor{changed: make(chan struct{})}
}

// NotifyAll is called under the lock.
func (m *Monitor) NotifyAll() {
	points.Point()
	close(m.changed)
	m.changed = make(chan struct{})
	points.Point()
}

// Wait gives the lock back until something changes, whatever the interrupted status.
func (m *Monitor) Wait() {
	changed := m.changed
	m.Unlock()
	<-changed
	m.Lock()
}

// WaitInterruptibly does the same until the thread is interrupted or out of time, or for no reason.
func (m *Monitor) WaitInterruptibly(t *Thread, time_ Time) {
	changed := m.changed
	m.Unlock()
	defer m.Lock()
	if t.IsInterrupted() {
		return
	}
	timer := time.NewTimer(time_.left())
	defer timer.Stop()
	select {
	case <-changed:
	case <-t.wakes:
	case <-timer.C:
	}
}
