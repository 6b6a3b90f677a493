package deep

import l "tlog"

var Second = l.Say("deep.Second")

func init() { l.Say("deep.init 2") }
func init() { l.Say("deep.init 3") }
