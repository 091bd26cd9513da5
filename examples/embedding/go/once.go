// Prints the trace of two threads that meet, and the first step of a session. In this folder, with an installed library: go run .
package main

import (
	"fmt"
	"os"

	vuthgal "vuthgal.dev/go"
)

const program = ".phaser p 2\n.thread a main\n.thread b main\nmain: paaa r0 p\nout r0\nhalt\n"

func main() {
	trace, err := vuthgal.Run([]byte(program), []byte("t0 t1 t0*3 t1*2"))
	fmt.Print(trace)
	if err != nil {
		fmt.Fprintln(os.Stderr, err)
		os.Exit(int(err.(*vuthgal.Fault).Status))
	}
	session, err := vuthgal.Open([]byte(program))
	if err != nil {
		fmt.Fprintln(os.Stderr, err)
		os.Exit(1)
	}
	defer session.Close()
	line, _ := session.Step(0)
	fmt.Println(line)
}
