package main

import log "tlog"

var w, x = pair(y)

var order = []int{w, x, z}

func pair(n int) (int, int) {
	return n + log.Say("main.pair"), n - 1
}

func init() {
	order = append(order, len(order))
	log.Say("main.init a")
}
