package main

import log "tlog"

var y = log.Say("main.y") + z

const (
	c0 = iota * 10
	c1
	_
	c3
)

var _ = log.Say("main.blank")

func init() { println(c0, c1, c3) }
