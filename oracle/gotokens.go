// Writes what go/scanner, with comments, reads in every .go file under a folder, or in every input
// of target/oracle/generate on standard input, for oracle/gocompare.rs.
//
// gotokens [ROOT]
//
// The stream: for each token of go/token its name (a length and bytes), a length 0; then for each
// file its path and its bytes, each with its length; its tokens; the byte 255. A token is its
// number (one byte), 1 where an error was reported by its scan or before it (one byte), its byte
// offset, its text with its length, and for a STRING the value with its length, for a CHAR the code
// point. Numbers have four bytes, the lowest first.
package main

import (
	"bufio"
	"encoding/binary"
	"fmt"
	"go/scanner"
	"go/token"
	"io"
	"io/fs"
	"log"
	"os"
	"path/filepath"
	"strconv"
)

const end = 255

type stream struct{ *bufio.Writer }

func (s stream) number(n int) {
	var four [4]byte
	binary.LittleEndian.PutUint32(four[:], uint32(n))
	s.Write(four[:])
}

func (s stream) text(text string) {
	s.number(len(text))
	s.WriteString(text)
}

// The names of all tokens, by their numbers.
func (s stream) names() {
	for t := token.Token(0); t <= token.TILDE; t++ {
		s.text(t.String())
	}
	s.number(0)
}

// The value of a literal; that of a bad one is empty, and is not compared.
func (s stream) value(tok token.Token, lit string) {
	switch tok {
	case token.STRING:
		value, _ := strconv.Unquote(lit)
		s.text(value)
	case token.CHAR:
		code, _, _, _ := strconv.UnquoteChar(lit[1:], '\'')
		s.number(int(code))
	}
}

// All tokens of a source up to EOF.
func (s stream) tokens(path string, src []byte) {
	var sc scanner.Scanner
	file := token.NewFileSet().AddFile(path, -1, len(src))
	sc.Init(file, src, nil, scanner.ScanComments)
	for {
		pos, tok, lit := sc.Scan()
		s.WriteByte(byte(tok))
		bad := byte(0)
		if sc.ErrorCount > 0 {
			bad = 1
		}
		s.WriteByte(bad)
		s.number(file.Offset(pos))
		s.text(lit)
		s.value(tok, lit)
		if tok == token.EOF {
			s.WriteByte(end)
			return
		}
	}
}

func (s stream) source(name string, src []byte) {
	s.text(name)
	s.text(string(src))
	s.tokens(name, src)
}

// The .go files under a folder.
func (s stream) tree(root string) error {
	root += "/"
	return filepath.WalkDir(root, func(path string, entry fs.DirEntry, err error) error {
		if err != nil || entry.IsDir() || filepath.Ext(path) != ".go" {
			return err
		}
		src, err := os.ReadFile(path)
		if err != nil {
			return err
		}
		name, _ := filepath.Rel(root, path)
		s.source(name, src)
		return nil
	})
}

// The inputs of target/oracle/generate: a length, a size, which is not asked for here, and the
// bytes.
func (s stream) frames(input io.Reader) error {
	for n := 1; ; n++ {
		var head [2]uint32
		err := binary.Read(input, binary.LittleEndian, &head)
		if err == io.EOF {
			return nil
		}
		src := make([]byte, head[0])
		if err == nil {
			_, err = io.ReadFull(input, src)
		}
		if err != nil {
			return err
		}
		s.source(fmt.Sprint("input ", n), src)
	}
}

func main() {
	log.SetFlags(0)
	s := stream{bufio.NewWriterSize(os.Stdout, 1<<20)}
	s.names()
	var err error
	if len(os.Args) > 1 {
		err = s.tree(os.Args[1])
	} else {
		err = s.frames(bufio.NewReaderSize(os.Stdin, 1<<20))
	}
	if err == nil {
		err = s.Flush()
	}
	if err != nil {
		log.Fatal("gotokens: ", err)
	}
}
