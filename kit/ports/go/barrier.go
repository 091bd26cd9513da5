package main

// A cyclic barrier over one monitor, as docs/BEHAVIOUR.md has it, heading "Cyclic barrier".

// Action runs when all parties have come, by the last of them.
type Action func(t *Thread) error

// generation is the arrivals between two ends. Who waits keeps its own, and finds in it how that one ended.
type generation struct {
	tripped, broken bool
}

// CyclicBarrier is java.util.concurrent.CyclicBarrier.
type CyclicBarrier struct {
	monitor    *Monitor
	parties    int32
	action     Action
	generation *generation // under the lock, as all that follows
	waiting    int32
	runner     *Thread // inside the action
}

// NewCyclicBarrier makes a barrier; a nil action is none.
func NewCyclicBarrier(parties int32, action Action) (*CyclicBarrier, error) {
	if parties < 1 {
		return nil, ErrIllegalArgument
	}
	return &CyclicBarrier{monitor: NewMonitor(), parties: parties, action: action, generation: &generation{}}, nil
}

func (b *CyclicBarrier) Parties() int32 { return b.parties }

// letIn takes the lock. While another thread runs the action nobody is let in.
func (b *CyclicBarrier) letIn(t *Thread) {
	b.monitor.Lock()
	for b.runner != nil && b.runner != t {
		b.monitor.Wait()
	}
}

// Await waits until all parties have come, and answers the arrival index.
func (b *CyclicBarrier) Await(t *Thread, time Time) (int32, error) {
	b.letIn(t)
	defer b.monitor.Unlock()
	if b.runner == t {
		return 0, ErrIllegalState
	}
	if b.generation.broken {
		return 0, ErrBrokenBarrier
	}
	if err := b.breakIfInterrupted(t); err != nil {
		return 0, err
	}
	index := b.parties - 1 - b.waiting
	if index > 0 {
		if err := b.breakIfLate(time); err != nil {
			return 0, err
		}
		return index, b.waitForTheEnd(t, time)
	}
	if err := b.runAction(t); err != nil {
		return 0, err
	}
	b.generation.tripped = true
	b.renew()
	return 0, nil
}

// runAction gives the lock back while the action runs, which breaks the barrier where it throws.
func (b *CyclicBarrier) runAction(t *Thread) error {
	if b.action == nil {
		return nil
	}
	b.runner = t
	b.monitor.Unlock()
	err := b.action(t)
	b.monitor.Lock()
	b.runner = nil
	if err != nil {
		b.breakBarrier()
	}
	return err
}

// waitForTheEnd of this generation: how it ended counts before an interrupt, and that before the time. While the action runs
// nobody leaves.
func (b *CyclicBarrier) waitForTheEnd(t *Thread, time Time) error {
	mine := b.generation
	b.waiting++
	for !mine.tripped && !mine.broken {
		if b.runner != nil {
			b.monitor.Wait()
			continue
		}
		if err := b.breakIfInterrupted(t); err != nil {
			return err
		}
		if err := b.breakIfLate(time); err != nil {
			return err
		}
		b.monitor.WaitInterruptibly(t, time)
	}
	if mine.broken {
		return ErrBrokenBarrier
	}
	return nil
}

func (b *CyclicBarrier) breakIfInterrupted(t *Thread) error {
	if t.ClearInterrupted() {
		b.breakBarrier()
		return ErrInterrupted
	}
	return nil
}

func (b *CyclicBarrier) breakIfLate(time Time) error {
	if time.IsOver() {
		b.breakBarrier()
		return ErrTimedOut
	}
	return nil
}

func (b *CyclicBarrier) breakBarrier() {
	b.generation.broken = true
	b.waiting = 0
	b.monitor.NotifyAll()
}

func (b *CyclicBarrier) renew() {
	b.generation = &generation{}
	b.waiting = 0
	b.monitor.NotifyAll()
}

func (b *CyclicBarrier) Reset(t *Thread) error {
	b.letIn(t)
	defer b.monitor.Unlock()
	if b.runner == t {
		return ErrIllegalState
	}
	if b.waiting > 0 {
		b.breakBarrier()
	}
	b.renew()
	return nil
}

func (b *CyclicBarrier) IsBroken(t *Thread) bool {
	b.letIn(t)
	defer b.monitor.Unlock()
	return b.generation.broken
}

func (b *CyclicBarrier) NumberWaiting(t *Thread) (int32, error) {
	b.letIn(t)
	defer b.monitor.Unlock()
	if b.runner == t {
		return 0, ErrIllegalState
	}
	return b.waiting, nil
}
