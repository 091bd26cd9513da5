package main

// A phaser over one monitor for each tree, as docs/BEHAVIOUR.md has it, headings "Phaser" and below. The trees are small and the
// rules plain, so nothing here is clever: a call takes the tree's lock, does all that follows from it, and notifies everybody
// where a phase has ended. OnAdvance alone runs without the lock.

import "math"

const mostParties = 65535

// OnAdvance is asked of a root when all have arrived: whether the phaser terminates.
type OnAdvance func(t *Thread, phase, parties int32) (bool, error)

// tree is what the phasers of a tree have in common.
type tree struct {
	*Monitor
	phase      int32
	terminated bool
	turned     bool    // of the root: all have arrived, or the last has left, and the phase hasn't ended
	runner     *Thread // inside OnAdvance
	phasers    []*Phaser
}

// Phaser is java.util.concurrent.Phaser.
type Phaser struct {
	parent    *Phaser
	root      *Phaser
	onAdvance OnAdvance
	tree      *tree
	parties   int32 // under the tree's lock, as all that follows
	unarrived int32
}

func (t *tree) view() int32 {
	if t.terminated {
		return t.phase + math.MinInt32
	}
	return t.phase
}

// endPhase ends a phase; where a forced termination came first there is nothing left to end.
func (t *tree) endPhase(terminates bool) {
	if t.terminated {
		return
	}
	if t.phase == math.MaxInt32 {
		t.phase = 0
	} else {
		t.phase++
	}
	t.terminated = terminates
	t.turned = false
	for _, phaser := range t.phasers {
		phaser.unarrived = phaser.parties
	}
	t.NotifyAll()
}

func (t *tree) isRunner(thread *Thread) bool { return t.runner == thread }

// NewPhaser makes the child of parent, or, where that is nil, a root that begins in this phase. It may have to wait, as a
// registration does. A nil onAdvance is the class's own.
func NewPhaser(t *Thread, parent *Phaser, parties, firstPhase int32, onAdvance OnAdvance) (*Phaser, error) {
	if parties < 0 || parties > mostParties {
		return nil, ErrIllegalArgument
	}
	if onAdvance == nil {
		onAdvance = func(_ *Thread, _, parties int32) (bool, error) { return parties == 0, nil }
	}
	phaser := &Phaser{parent: parent, onAdvance: onAdvance}
	if parent == nil {
		phaser.root = phaser
		phaser.tree = &tree{Monitor: NewMonitor(), phase: firstPhase}
	} else {
		phaser.root = parent.root
		phaser.tree = parent.tree
	}
	phaser.tree.Lock()
	phaser.tree.phasers = append(phaser.tree.phasers, phaser)
	phaser.tree.Unlock()
	_, err := phaser.BulkRegister(t, parties)
	return phaser, err
}

func (p *Phaser) Parent() *Phaser { return p.parent }
func (p *Phaser) Root() *Phaser   { return p.root }

// ---------------------------------------------------------------- registering

func (p *Phaser) BulkRegister(t *Thread, count int32) (int32, error) {
	p.tree.Lock()
	defer p.tree.Unlock()
	if p.tree.isRunner(t) {
		return 0, ErrIllegalState
	}
	if count < 0 {
		return 0, ErrIllegalArgument
	}
	for count > 0 && !p.tree.terminated {
		changes := p.joining(count)
		held := false
		for _, each := range changes {
			if each.phaser.parties > mostParties-each.more {
				return 0, ErrIllegalState
			}
			held = held || each.phaser.isTurned()
		}
		if !held {
			for _, each := range changes {
				each.phaser.parties += each.more
				each.phaser.unarrived += each.more
			}
			break
		}
		p.tree.Wait() // until the phase has ended
	}
	return p.tree.view(), nil
}

type joined struct {
	phaser *Phaser
	more   int32
}

// joining has the phasers that a registration changes, each with the parties it gets: one that is empty joins its parent.
func (p *Phaser) joining(count int32) []joined {
	changes := []joined{{p, count}}
	for at := p; at.parties == 0 && at.parent != nil; at = at.parent {
		changes = append(changes, joined{at.parent, 1})
	}
	return changes
}

func (p *Phaser) isTurned() bool {
	if p.parent == nil {
		return p.tree.turned
	}
	return p.parties > 0 && p.unarrived == 0
}

// ---------------------------------------------------------------- arriving

func (p *Phaser) Arrive(t *Thread, leaves bool) (int32, error) {
	p.tree.Lock()
	defer p.tree.Unlock()
	if p.tree.isRunner(t) {
		return 0, ErrIllegalState
	}
	if p.tree.terminated {
		return p.tree.view(), nil
	}
	changes, err := p.arriving(leaves)
	if err != nil {
		return 0, err
	}
	phase := p.tree.phase
	for _, each := range changes {
		each.phaser.unarrived--
		if each.departs {
			each.phaser.parties--
		}
		if each.phaser == p.root && p.root.unarrived == 0 {
			return phase, p.advance(t)
		}
	}
	return phase, nil
}

type arrived struct {
	phaser  *Phaser
	departs bool
}

// arriving has the phasers that an arrival changes, each with whether a party departs from it: a complete child arrives at its
// parent, and departs from it where its last party departs. Nothing changes where one of them waits for nobody.
func (p *Phaser) arriving(leaves bool) ([]arrived, error) {
	var changes []arrived
	for at := p; at != nil; at = at.parent {
		if at.unarrived == 0 {
			return nil, ErrIllegalState
		}
		changes = append(changes, arrived{at, leaves})
		if at.unarrived > 1 {
			break
		}
		leaves = leaves && at.parties == 1
	}
	return changes, nil
}

// advance is called under the lock, and gives it back meanwhile. What OnAdvance throws ends no phase: the root stays turned.
func (p *Phaser) advance(t *Thread) error {
	p.tree.turned = true
	p.tree.runner = t
	phase, parties := p.tree.phase, p.root.parties
	p.tree.Unlock()
	terminates, err := p.root.onAdvance(t, phase, parties)
	p.tree.Lock()
	p.tree.runner = nil
	if err == nil {
		p.tree.endPhase(terminates)
	}
	return err
}

func (p *Phaser) ArriveAndAwaitAdvance(t *Thread) (int32, error) {
	phase, err := p.Arrive(t, false)
	if err != nil {
		return 0, err
	}
	return p.AwaitAdvance(t, phase)
}

// ---------------------------------------------------------------- waiting

func (p *Phaser) AwaitAdvance(t *Thread, phase int32) (int32, error) {
	return p.await(t, phase, func() error {
		p.tree.Wait()
		return nil
	})
}

func (p *Phaser) AwaitAdvanceInterruptibly(t *Thread, phase int32, time Time) (int32, error) {
	return p.await(t, phase, func() error {
		if t.ClearInterrupted() {
			return ErrInterrupted
		}
		if time.IsOver() {
			return ErrTimedOut
		}
		p.tree.WaitInterruptibly(t, time)
		return nil
	})
}

// await waits, one wake-up after the other, until the phase is another one. wait is called under the lock.
func (p *Phaser) await(t *Thread, phase int32, wait func() error) (int32, error) {
	p.tree.Lock()
	defer p.tree.Unlock()
	if p.tree.isRunner(t) {
		return 0, ErrIllegalState
	}
	if phase < 0 {
		return phase, nil
	}
	for p.tree.view() == phase {
		if err := wait(); err != nil {
			return 0, err
		}
	}
	return p.tree.view(), nil
}

// ---------------------------------------------------------------- termination and getters

func (p *Phaser) ForceTermination() {
	p.tree.Lock()
	defer p.tree.Unlock()
	p.tree.terminated = true
	p.tree.NotifyAll()
}

func (p *Phaser) IsTerminated() bool {
	p.tree.Lock()
	defer p.tree.Unlock()
	return p.tree.terminated
}

func (p *Phaser) Phase() int32 {
	p.tree.Lock()
	defer p.tree.Unlock()
	return p.tree.view()
}

func (p *Phaser) RegisteredParties() int32 {
	p.tree.Lock()
	defer p.tree.Unlock()
	return p.parties
}

func (p *Phaser) ArrivedParties() int32 {
	p.tree.Lock()
	defer p.tree.Unlock()
	if p.tree.terminated {
		return p.parties
	}
	return p.parties - p.unarrived
}

func (p *Phaser) UnarrivedParties() int32 {
	p.tree.Lock()
	defer p.tree.Unlock()
	if p.tree.terminated {
		return 0
	}
	return p.unarrived
}
