package tlog

import "strconv"

var n int

func Say(who string) int {
	n++
	println(strconv.Itoa(n)+".", who)
	return n
}

func init() { Say("tlog.init") }
