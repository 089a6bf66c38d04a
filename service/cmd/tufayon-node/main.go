// tufayon-node is a set's plugin of one node as a CSI driver: docs/SERVICE.md, "The plugins".
package main

import (
	"tufayon/service/program"
	"tufayon/service/secure"
)

func main() { program.Main("tufayon-node", secure.Node) }
