package main

import (
	"fmt"
	"go/parser"
	"go/token"
	"io"
	"os"
	"time"
)

func main() {
	src, _ := io.ReadAll(os.Stdin)
	start := time.Now()
	_, err := parser.ParseFile(token.NewFileSet(), "", src, parser.SkipObjectResolution)
	fmt.Println("parse", time.Since(start).Microseconds(), "us", err == nil)
}
