package tillermoss

import (
	"math"
	"strconv"
	"testing"
)

// The rules of a session, by hand and without a server: each is a rule of docs/PROTOCOL.md at its limit.

const name = "/ls/c/f"

var file = &View{Instance: 4, ContentGeneration: 1, ACLGeneration: 1, ACLs: [3]string{"base", "base", "base"}, Content: []byte("hi")}

func of(kind int, number uint64) *message {
	return &message{kind: kind, client: 1, epoch: 5, number: number}
}

func started(span uint64) *message {
	given := of(kindStarted, 1)
	given.span = span
	return given
}

func alive(number, span uint64, invalidations ...invalidation) *message {
	given := of(kindAlive, number)
	given.span, given.invalidations = span, invalidations
	return given
}

func refusedBy(number uint64, refusal Refusal) *message {
	given := of(kindRefused, number)
	given.result = &refusal
	return given
}

// liveSession began at 1000.
func liveSession() *session {
	it := newSession(1, "ann")
	it.beat(1000)
	it.give(1010, started(12_000))
	return it
}

func teach(it *session, moment int64, stamp int, name string, result any) *waiting {
	call := it.ask(nil, nil)
	call.name, call.teachesView, call.teachesAbsence = name, true, true
	given := of(kindReply, call.number)
	given.hasStamp, given.stamp, given.result = stamp >= 0, uint64(stamp), result
	it.give(moment, given)
	return call
}

func holds(it *session, name string) bool {
	_, is := it.cache.find(name)
	return is
}

func kinds(events []Event) []string {
	found := []string{}
	for _, event := range events {
		found = append(found, event.Kind)
	}
	return found
}

func TestTheEndOfALease(test *testing.T) {
	for _, row := range []struct{ sent, span, until int64 }{{0, 12_000, 11_294}, {1000, 12_000, 12_294}, {0, 17, 15}, {0, 0, 0}, {7, 1, 7}} {
		equal(test, lease{row.sent, row.span}.until(), row.until)
		for moment := row.sent; moment < row.sent+13_000; moment++ {
			equal(test, 17*(moment-row.sent+1) < 16*row.span, moment < row.until)
		}
	}
	it := newSession(1, "ann")
	it.beat(1000)
	it.give(1010, started(math.MaxUint64))
	equal(test, []any{it.enabled, it.lease.until() > 1000}, []any{true, true})
}

func TestNothingIsServedBehindTheLease(test *testing.T) {
	it := liveSession()
	teach(it, 1020, 0, name, file)
	_, is := it.cached(12_293, name)
	equal(test, is, true)
	_, is = it.cached(12_294, name)
	equal(test, is, false)
	equal(test, kinds(it.note(12_293)), []string{})
	equal(test, kinds(it.note(12_294)), []string{EventJeopardy})
	equal(test, []any{holds(it, name), it.enabled}, []any{false, false})
}

func TestJeopardyLasts45Seconds(test *testing.T) {
	for moment, wanted := range map[int64]state{57_293: live, 57_294: lost} {
		it := liveSession()
		it.note(12_294)
		it.note(moment)
		equal(test, it.state, wanted)
	}
}

func TestALeaseCountsFromTheSendingOfTheNewestBeat(test *testing.T) {
	for number, wanted := range map[uint64]lease{2: {1000, 12_000}, 3: {3000, 12_000}, 4: {1000, 12_000}} {
		it := liveSession()
		it.beat(2000)
		it.beat(3000)
		it.give(9000, alive(number, 12_000))
		equal(test, it.lease, wanted)
	}
}

func TestAWorseLeaseIsLeft(test *testing.T) {
	it := liveSession()
	it.beat(2000)
	it.give(2010, alive(2, 1))
	equal(test, it.lease, lease{1000, 12_000})
}

func TestABetterLeaseEndsAJeopardy(test *testing.T) {
	it := liveSession()
	it.beat(13_000)
	it.note(13_000)
	equal(test, kinds(it.give(13_010, alive(2, 12_000))), []string{EventSafe})
	equal(test, []any{it.enabled, it.isInDanger}, []any{true, false})
}

func TestAStartedForAnotherStartIsDropped(test *testing.T) {
	it := newSession(1, "ann")
	it.beat(1000)
	it.beat(2000)
	it.give(2010, started(12_000))
	equal(test, it.state, unstarted)
}

func TestWhatAnInvalidationOvertookIsNotKept(test *testing.T) {
	for stamp, wanted := range map[int]bool{-1: false, 0: false, 1: true, 2: true} {
		it := liveSession()
		it.give(1020, alive(1, 12_000, invalidation{1, "/ls/c/other"}))
		teach(it, 1030, stamp, name, file)
		equal(test, holds(it, name), wanted)
	}
}

func TestAnInvalidationTakesTheNameOut(test *testing.T) {
	it := liveSession()
	teach(it, 1020, 0, name, file)
	it.give(1030, alive(1, 12_000, invalidation{1, name}))
	equal(test, []any{holds(it, name), it.processed}, []any{false, 1})
	teach(it, 1040, 1, name, file)
	it.give(1050, alive(1, 12_000, invalidation{1, name}))
	equal(test, holds(it, name), true)
}

func TestAnAbsenceIsKept(test *testing.T) {
	it := liveSession()
	teach(it, 1020, 0, name, &Refusal{Number: NotFound})
	view, is := it.cached(1030, name)
	equal(test, []any{view == nil, is}, []any{true, true})
}

func TestTheOldestGoesFirst(test *testing.T) {
	it := liveSession()
	for at := 0; at <= cacheLimit; at++ {
		teach(it, 1020, 0, "/ls/c/"+strconv.Itoa(at), file)
	}
	equal(test, []any{it.cache.order.Len(), holds(it, "/ls/c/0"), holds(it, "/ls/c/1")}, []any{cacheLimit, false, true})
}

func TestNothingIsKeptInJeopardy(test *testing.T) {
	it := liveSession()
	teach(it, 13_000, 0, name, file)
	equal(test, holds(it, name), false)
}

func TestAMessageOfAnotherEpochOrClientIsDropped(test *testing.T) {
	for _, other := range []struct{ client, epoch uint64 }{{1, 4}, {1, 6}, {2, 5}} {
		it := liveSession()
		teach(it, 1020, 0, name, file)
		given := alive(1, 12_000, invalidation{1, name})
		given.client, given.epoch = other.client, other.epoch
		it.give(1030, given)
		equal(test, []any{holds(it, name), it.processed}, []any{true, 0})
	}
}

func TestALaterEpoch(test *testing.T) {
	it := liveSession()
	teach(it, 1020, 0, name, file)
	call := it.ask(nil, nil)
	it.give(1030, refusedBy(9, Refusal{Number: OldEpoch, Argument: 6}))
	equal(test, []any{it.epoch, holds(it, name), it.enabled, it.state}, []any{6, false, true, live})
	<-call.done
	equal(test, call.result.(*Refusal).Number, Unknown)
}

func TestNoLaterEpoch(test *testing.T) {
	for _, row := range []struct{ epoch, argument uint64 }{{5, 5}, {4, 6}} {
		it := liveSession()
		given := refusedBy(9, Refusal{Number: OldEpoch, Argument: row.argument})
		given.epoch = row.epoch
		it.give(1030, given)
		equal(test, it.epoch, 5)
	}
}

func TestNoSession(test *testing.T) {
	for epoch, wanted := range map[uint64]state{4: live, 5: lost, 6: lost} {
		it := liveSession()
		given := refusedBy(9, Refusal{Number: NoSession})
		given.epoch = epoch
		it.give(1030, given)
		equal(test, it.state, wanted)
	}
	it := newSession(1, "ann")
	it.beat(1000)
	it.give(1010, refusedBy(1, Refusal{Number: NoSession}))
	equal(test, it.state, turnedAway)
}

func TestARepeatedReplyEndsNothing(test *testing.T) {
	it := liveSession()
	teach(it, 1020, 0, name, file)
	call := it.ask(nil, nil)
	it.give(1030, of(kindReply, 1))
	equal(test, it.waiting == call, true)
}

func TestNothingIsServedFromALeaveOn(test *testing.T) {
	it := liveSession()
	teach(it, 1020, 0, name, file)
	it.leave()
	equal(test, []any{holds(it, name), it.enabled}, []any{false, false})
	it.beat(2000)
	it.give(2010, alive(2, 12_000))
	equal(test, []any{it.lease, it.enabled, it.state}, []any{lease{2000, 12_000}, false, live})
}

func TestTheEndOfALeave(test *testing.T) {
	again := of(kindReply, 1)
	again.result = &Refusal{Number: Recovering}
	for _, row := range []struct {
		given  *message
		wanted state
	}{
		{of(kindReply, 1), left}, {again, live},
		{refusedBy(1, Refusal{Number: NoSession}), lost},
		{refusedBy(1, Refusal{Number: OldEpoch, Argument: 6}), live},
	} {
		it := liveSession()
		call := it.leave()
		it.give(1030, row.given)
		<-call.done
		equal(test, []any{it.state, it.enabled}, []any{row.wanted, false})
	}
}

func TestNoBeatWhileAnAnswerMayBeOnItsWay(test *testing.T) {
	it := newSchedule()
	it.beaten(1000, 1, 5000)
	dues := []int64{it.due}
	for number := uint64(2); number < 10; number++ {
		it.beaten(it.due, number, 0)
		dues = append(dues, it.due)
	}
	equal(test, dues, []int64{5000, 5400, 6200, 7800, 11_000, 17_400, 27_400, 37_400, 47_400})
}

func TestABeatBehindAnAnswer(test *testing.T) {
	for _, row := range []struct {
		given *message
		due   int64
	}{
		{alive(7, 1), 1020},
		{alive(7, 1, invalidation{1, name}), 1005},
		{alive(6, 1, invalidation{1, name}), 5000},
		{refusedBy(3, Refusal{Number: OldEpoch, Argument: 9}), 1020},
		{refusedBy(3, Refusal{Number: Recovering}), 5000},
		{&message{kind: kindNotice}, 1005},
		{&message{kind: kindNotice, number: 7}, 5000},
	} {
		it := newSchedule()
		it.beaten(1000, 7, 5000)
		it.heard(1005, row.given)
		equal(test, it.due, row.due)
	}
}
