package main

import (
	"fmt"
	"go/scanner"
	"go/token"
	"io"
	"os"
	"time"
)

func main() {
	src, _ := io.ReadAll(os.Stdin)
	for i := 0; i < 5; i++ {
		start := time.Now()
		fset := token.NewFileSet()
		file := fset.AddFile("", fset.Base(), len(src))
		var s scanner.Scanner
		s.Init(file, src, nil, 0)
		n := 0
		for {
			_, tok, _ := s.Scan()
			n++
			if tok == token.EOF {
				break
			}
		}
		fmt.Println(n, "tokens", time.Since(start).Microseconds(), "us", s.ErrorCount, "errors")
	}
}
