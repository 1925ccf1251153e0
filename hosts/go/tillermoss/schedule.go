package tillermoss

const (
	firstPause = 200
	lastPause  = 10_000
	pace       = 20
	keptLong   = 20_000
)

// schedule says when the next Beat goes.
type schedule struct {
	number     uint64
	sent       int64
	first      int64
	due        int64
	pause      int64
	usual      int64
	isAnswered bool
}

func newSchedule() *schedule {
	return &schedule{pause: firstPause, isAnswered: true}
}

// beaten notes that a Beat was sent. None follows while its answer may be on its way: a master keeps it until the lease is near its end.
func (it *schedule) beaten(moment int64, number uint64, until int64) {
	wait := max(until-moment, 0)
	if it.isAnswered {
		it.first, it.pause = moment, firstPause
		if it.usual >= keptLong && wait > it.usual/2 {
			wait = it.usual / 2
		}
	} else {
		it.pause *= 2
		if it.pause > lastPause {
			it.pause = lastPause
		}
	}
	it.number, it.sent, it.due, it.isAnswered = number, moment, moment+max(wait, it.pause), false
}

func (it *schedule) heard(moment int64, message *message) {
	isAnswer := message.kind != kindNotice && message.kind != kindReply && message.number == it.number
	switch {
	case message.kind == kindNotice && message.number == 0:
		it.due = moment
	case isAnswer && len(message.invalidations)+len(message.events) > 0:
		it.due = moment
	case isAnswer || isOldEpoch(message):
		if paced := max(moment, it.sent+pace); paced < it.due {
			it.due = paced
		}
	}
	if isAnswer {
		it.usual, it.isAnswered = moment-it.first, true
	}
}

func isOldEpoch(message *message) bool {
	why, is := message.result.(*Refusal)
	return is && message.kind == kindRefused && why.Number == OldEpoch
}
