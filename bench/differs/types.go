// Tells for each folder, a line of standard input, what go/types tells of its files: the folder, a tab, and faults as LINE:TEXT,
// with tabs between them. Sizes are those of 32 bits.
package main

import (
	"bufio"
	"fmt"
	"go/ast"
	"go/parser"
	"go/scanner"
	"go/token"
	"go/types"
	"os"
	"path/filepath"
	"strings"
)

func main() {
	folders := bufio.NewScanner(os.Stdin)
	for folders.Scan() {
		fmt.Println(strings.Join(append([]string{folders.Text()}, told(folders.Text())...), "\t"))
	}
}

func told(folder string) (faults []string) {
	tell := func(at token.Position, text string) {
		faults = append(faults, fmt.Sprintf("%d:%s", at.Line, strings.Join(strings.Fields(text), " ")))
	}
	files := token.NewFileSet()
	tree, err := parser.ParseFile(files, filepath.Join(folder, "main.go"), nil, parser.AllErrors)
	if all, ok := err.(scanner.ErrorList); ok {
		for _, one := range all {
			tell(one.Pos, "syntax: "+one.Msg)
		}
		return faults
	}
	// some faults of constant shifts end go/types itself
	defer func() {
		if recover() != nil {
			faults = []string{"0:go/types ended"}
		}
	}()
	config := types.Config{GoVersion: "go1.17", Sizes: types.SizesFor("gc", "386"), Error: func(err error) {
		// what begins with a tab belongs to the fault before it
		if one := err.(types.Error); !strings.HasPrefix(one.Msg, "\t") {
			tell(files.Position(one.Pos), one.Msg)
		}
	}}
	checked, _ := config.Check("main", files, []*ast.File{tree}, nil)
	if _, ok := checked.Scope().Lookup("main").(*types.Func); !ok {
		faults = append(faults, "1:no function main")
	}
	return faults
}
