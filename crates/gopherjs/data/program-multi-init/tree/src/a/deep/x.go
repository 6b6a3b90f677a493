package deep

import log "tlog"

var (
	Total = First + Second
	First = log.Say("deep.First")
)

func init() { log.Say("deep.init 1") }
