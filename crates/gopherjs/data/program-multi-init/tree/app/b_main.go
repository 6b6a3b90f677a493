package main

import (
	"b"
	log "tlog"
)

var z = log.Say("main.z")

func init() { log.Say("main.init b") }

func main() {
	println(order[0], order[1], order[2], len(order))
	println(z, y, x, w, b.Sum(), b.Default.N())
	log.Say("main")
}
