package vuthgal

import (
	"syscall"
	"testing"
)

// processor is how long the processor has worked for this process, in nanoseconds.
func processor() int64 {
	var used syscall.Rusage
	_ = syscall.Getrusage(syscall.RUSAGE_SELF, &used)
	return used.Utime.Nano() + used.Stime.Nano()
}

// took reports the microseconds of the processor that a call takes, beside what the clock says.
func took(b *testing.B, call func(n int) error) {
	b.Helper()
	begun := processor()
	for n := 0; n < b.N; n++ {
		if err := call(n); err != nil {
			b.Fatal(err)
		}
	}
	report(b, processor()-begun)
}

func report(b *testing.B, nanoseconds int64) {
	b.ReportMetric(float64(nanoseconds)/1e3/float64(b.N), "cpu-us/op")
}

func opened(b *testing.B) *Session {
	session, err := Open([]byte(".phaser p 2\n.thread a main\n.thread b main\nmain: paaa r0 p\njmp main\n"))
	if err != nil {
		b.Fatal(err)
	}
	b.Cleanup(session.Close)
	return session
}

func BenchmarkRun(b *testing.B) {
	program := []byte(".phaser p 2\n.thread a main\n.thread b main\nmain: paaa r0 p\nout r0\nhalt\n")
	took(b, func(int) error { _, err := Run(program, []byte("t0 t1 t0*3 t1*2")); return err })
}

func BenchmarkStep(b *testing.B) {
	session := opened(b)
	took(b, func(n int) error { _, err := session.Step(n % 2); return err })
}

// A session keeps 4,096 choices, so the steps between aren't counted.
func BenchmarkBack(b *testing.B) {
	session, used := opened(b), int64(0)
	for n := 0; n < b.N; n += 4096 {
		for thread := 0; thread < 4096; thread++ {
			if _, err := session.Step(thread % 2); err != nil {
				b.Fatal(err)
			}
		}
		begun := processor()
		for back := n; back < n+4096 && back < b.N; back++ {
			if err := session.Back(); err != nil {
				b.Fatal(err)
			}
		}
		used += processor() - begun
	}
	report(b, used)
}

func BenchmarkEnabled(b *testing.B) {
	session := opened(b)
	took(b, func(int) error { session.Enabled(); return nil })
}

func BenchmarkState(b *testing.B) {
	session := opened(b)
	took(b, func(int) error { _, err := session.State(); return err })
}

func BenchmarkCopy(b *testing.B) {
	session := opened(b)
	took(b, func(int) error {
		other, err := session.Copy()
		if err == nil {
			other.Close()
		}
		return err
	})
}
