// Package version has the version of the programs, which is that of the file VERSION at the top of the repository:
// tools/house/count compares them.
package version

import (
	"fmt"
	"io"
)

// Number is the version, MAJOR.MINOR.PATCH.
const Number = "1.0.0"

// Told says whether the arguments are --version alone, and then writes the program's name and version.
func Told(program string, arguments []string, output io.Writer) bool {
	if len(arguments) != 1 || arguments[0] != "--version" {
		return false
	}
	fmt.Fprintf(output, "%s %s\n", program, Number)
	return true
}
