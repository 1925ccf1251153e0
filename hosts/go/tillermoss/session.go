package tillermoss

import "container/list"

// What a client knows of its session, its lease and its cache: the rules of docs/PROTOCOL.md, without a goroutine, a clock or a socket.
// Each moment is handed to it, in milliseconds.

const (
	grace      = 45_000
	cacheLimit = 4096
)

type state int

const (
	unstarted state = iota
	live
	lost
	left
	turnedAway
)

// waiting is the one call that has no reply yet.
type waiting struct {
	number         uint64
	block          []byte
	name           string
	teachesView    bool
	teachesAbsence bool
	limit          string
	// done is closed after the end; result then says what it is.
	done   chan struct{}
	result any
}

// lease runs from the moment at which its Start or Beat was sent.
type lease struct {
	sent, span int64
}

// until is the first moment at which the lease runs no more: by the rule that 17 * (now - sent + 1) is below 16 * span.
func (it lease) until() int64 {
	return it.sent + max((16*it.span+16)/17-1, 0)
}

func (it lease) isBetterThan(other lease) bool {
	return 17*it.sent+16*it.span > 17*other.sent+16*other.span
}

func max(one, other int64) int64 {
	if one > other {
		return one
	}
	return other
}

// cached is what the cache holds of a name: a view, or nil where the name isn't there.
type cached struct {
	name string
	view *View
}

// cache holds what was learnt last of each name, and forgets the oldest.
type cache struct {
	places map[string]*list.Element
	order  *list.List
}

func newCache() cache {
	return cache{map[string]*list.Element{}, list.New()}
}

func (it *cache) forget(name string) {
	if place, is := it.places[name]; is {
		it.order.Remove(place)
		delete(it.places, name)
	}
}

func (it *cache) learn(name string, view *View) {
	it.forget(name)
	for it.order.Len() >= cacheLimit {
		it.forget(it.order.Front().Value.(cached).name)
	}
	it.places[name] = it.order.PushBack(cached{name, view})
}

func (it *cache) find(name string) (*View, bool) {
	place, is := it.places[name]
	if !is {
		return nil, false
	}
	return place.Value.(cached).view, true
}

// session has no goroutine and no connection.
type session struct {
	client     uint64
	principal  string
	state      state
	epoch      uint64
	beats      uint64
	sent       int64
	calls      uint64
	processed  uint64
	heard      uint64
	lease      lease
	isInDanger bool
	danger     int64
	enabled    bool
	cache      cache
	leaving    bool
	waiting    *waiting
}

func newSession(client uint64, principal string) *session {
	return &session{client: client, principal: principal, cache: newCache()}
}

// note looks at the lease: what has ended with it is let go of before anything else is done. It gives what is to be told.
func (it *session) note(moment int64) []Event {
	if it.state != live || moment < it.lease.until() {
		return nil
	}
	it.turnOff()
	if !it.isInDanger {
		it.isInDanger, it.danger = true, moment
		return []Event{{Kind: EventJeopardy}}
	}
	if moment-it.danger >= grace {
		return it.lose(lost)
	}
	return nil
}

func (it *session) turnOff() {
	it.cache, it.enabled = newCache(), false
}

func (it *session) lose(state state) []Event {
	it.state = state
	it.turnOff()
	it.end(&Refusal{Number: SessionExpired})
	return []Event{{Kind: EventLost}}
}

// end gives the outstanding call its result.
func (it *session) end(result any) {
	call := it.waiting
	if call == nil {
		return
	}
	if refusal, is := result.(*Refusal); is {
		refusal.Limit = call.limit
	}
	call.result = result
	it.waiting = nil
	close(call.done)
}

// beat gives a Start until there is a session, then a Beat, which acknowledges all that was processed; nil where there is nothing to keep.
func (it *session) beat(moment int64) []byte {
	if it.state != unstarted && it.state != live {
		return nil
	}
	it.beats++
	it.sent = moment
	if it.state == unstarted {
		return start(it.client, it.beats, it.principal)
	}
	return beat(it.client, it.epoch, it.beats, it.processed, it.heard)
}

// cached says whether the cache answers for this name at this moment, and what: a view, or nil where the name isn't there.
func (it *session) cached(moment int64, name string) (*View, bool) {
	if !it.enabled || moment >= it.lease.until() {
		return nil, false
	}
	return it.cache.find(name)
}

func (it *session) ask(body []byte, sequencer []byte) *waiting {
	it.calls++
	it.waiting = &waiting{number: it.calls, block: call(it.client, it.epoch, it.calls, body, sequencer), done: make(chan struct{})}
	return it.waiting
}

// leave asks for the end of the session. Before that goes out the cache is emptied and turned off, for good; nothing else is asked.
func (it *session) leave() *waiting {
	it.leaving = true
	it.turnOff()
	return it.ask([]byte{callLeave}, nil)
}

// give takes a message of a master; it gives the events that are to be told.
func (it *session) give(moment int64, message *message) []Event {
	told := it.note(moment)
	if message.client != it.client {
		return told
	}
	switch message.kind {
	case kindStarted:
		it.started(moment, message)
	case kindAlive:
		told = append(told, it.alive(moment, message)...)
	case kindReply:
		it.replied(message)
	case kindRefused:
		told = append(told, it.refused(message)...)
	}
	return told
}

func (it *session) started(moment int64, message *message) {
	if it.state == unstarted && message.number == it.beats {
		it.state, it.epoch = live, message.epoch
		it.takeLease(moment, it.offer(message))
	}
}

// offer is the lease of the newest Start or Beat: it counts from when that was sent.
func (it *session) offer(message *message) lease {
	span := message.span
	if span > spanLimit {
		span = spanLimit
	}
	return lease{it.sent, int64(span)}
}

// takeLease says whether the lease runs.
func (it *session) takeLease(moment int64, offer lease) bool {
	it.lease = offer
	runs := moment < offer.until()
	it.enabled = runs && !it.leaving
	if !it.enabled {
		it.turnOff()
	}
	return runs
}

func (it *session) alive(moment int64, message *message) []Event {
	if it.state != live || message.epoch != it.epoch {
		return nil
	}
	for _, invalidation := range message.invalidations {
		if invalidation.number > it.processed {
			it.cache.forget(invalidation.name)
			it.processed = invalidation.number
		}
	}
	var told []Event
	for _, numbered := range message.events {
		if numbered.number > it.heard {
			told = append(told, numbered.event)
			it.heard = numbered.number
		}
	}
	offer := it.offer(message)
	if message.number == it.beats && offer.isBetterThan(it.lease) && it.takeLease(moment, offer) && it.isInDanger {
		it.isInDanger = false
		told = append(told, Event{Kind: EventSafe})
	}
	return told
}

func (it *session) replied(message *message) {
	call := it.waiting
	if it.state != live || message.epoch != it.epoch || call == nil || message.number != call.number {
		return
	}
	if message.hasStamp && it.processed <= message.stamp && it.enabled && !it.isInDanger {
		it.learn(call, message.result)
	}
	if it.leaving && message.result == nil {
		it.state = left
	}
	it.end(message.result)
}

func (it *session) learn(call *waiting, result any) {
	switch found := result.(type) {
	case *View:
		if call.teachesView {
			it.cache.learn(call.name, found)
		}
	case *Refusal:
		if call.teachesAbsence && found.Number == NotFound {
			it.cache.learn(call.name, nil)
		}
	}
}

func (it *session) refused(message *message) []Event {
	why, is := message.result.(*Refusal)
	switch {
	case !is:
	case why.Number == NoSession && it.state == unstarted:
		return it.lose(turnedAway)
	case why.Number == NoSession && it.state == live && it.epoch <= message.epoch:
		return it.lose(lost)
	case why.Number == OldEpoch && it.state == live && it.epoch <= message.epoch && it.epoch < why.Argument:
		it.epoch, it.processed, it.heard = why.Argument, 0, 0
		it.cache = newCache()
		it.end(&Refusal{Number: Unknown})
	}
	return nil
}
