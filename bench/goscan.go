// Times go/scanner, with comments, for bench/scan.rs. For each line on standard input, the number
// of a file among the arguments, it makes a few passes over that file, from opening to EOF, and
// answers with the number of tokens, EOF among them, and the nanoseconds that its thread ran in the
// quickest pass.
package main

import (
	"bufio"
	"fmt"
	"go/scanner"
	"go/token"
	"log"
	"os"
	"runtime"
	"strconv"
	"syscall"
	"unsafe"
)

const passes = 5

var sum int

func pass(src []byte) int {
	var s scanner.Scanner
	s.Init(token.NewFileSet().AddFile("", -1, len(src)), src, nil, scanner.ScanComments)
	for tokens := 1; ; tokens++ {
		pos, tok, lit := s.Scan()
		sum += int(pos) + len(lit)
		if tok == token.EOF {
			return tokens
		}
	}
}

// The time that this thread has run, in nanoseconds.
func now() int64 {
	const threadTime = 3
	var time syscall.Timespec
	syscall.RawSyscall(syscall.SYS_CLOCK_GETTIME, threadTime, uintptr(unsafe.Pointer(&time)), 0)
	return time.Nano()
}

func best(src []byte) (tokens int, least int64) {
	for i := 0; i < passes; i++ {
		start := now()
		tokens = pass(src)
		if taken := now() - start; i == 0 || taken < least {
			least = taken
		}
	}
	return
}

func main() {
	runtime.LockOSThread()
	var sources [][]byte
	for _, name := range os.Args[1:] {
		src, err := os.ReadFile(name)
		if err != nil {
			log.Fatal(err)
		}
		sources = append(sources, src)
	}
	lines := bufio.NewScanner(os.Stdin)
	for lines.Scan() {
		i, err := strconv.Atoi(lines.Text())
		if err != nil || i < 0 || i >= len(sources) {
			log.Fatal("goscan: no file ", lines.Text())
		}
		tokens, least := best(sources[i])
		fmt.Println(tokens, least)
	}
}
