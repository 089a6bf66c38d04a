// tufayon-controller is a set's controller plugin as a CSI driver: docs/SERVICE.md, "The plugins".
package main

import (
	"tufayon/service/program"
	"tufayon/service/secure"
)

func main() { program.Main("tufayon-controller", secure.Controller) }
