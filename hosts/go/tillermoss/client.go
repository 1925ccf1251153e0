// Package tillermoss is a client of a Tillermoss cell, in Go alone: sessions, files, locks, events, and reads out of a cache that are as
// fresh as the master's.
//
//	client, err := tillermoss.Connect(ctx, "127.0.0.1:7171", "ann", tillermoss.Options{})
//	file, err := client.Open(ctx, "/ls/c/motd", tillermoss.OpenOptions{Mode: tillermoss.ModeReadWrite, Make: []byte("hello")})
//	view, err := client.Read(ctx, file) // asks the master
//	view, err = client.Read(ctx, file)  // the cache answers
//
// It is written from docs/PROTOCOL.md, and keeps each of its rules; nothing of it is proved. One call is under way at a time, so a client
// that waits for a lock lets its other calls wait, but for reads that the cache answers.
package tillermoss

import (
	"context"
	"crypto/tls"
	"errors"
	"fmt"
	"math/rand"
	"strings"
	"sync"
	"time"
)

const (
	// Between two tries to connect, at first and at most; of each a random part, half at least.
	firstWait = 20 * time.Millisecond
	lastWait  = 500 * time.Millisecond
	// Between two tries of a call that is refused for now.
	callPause = 50 * time.Millisecond
	// How long at most a client that is closed waits until its session has ended.
	parting = 2 * time.Second
	// A timer stands still while the machine sleeps, so the clock is looked at so often at least.
	longestWait = time.Second
	patience    = 90 * time.Second
)

// Why a server binds no connection.
const (
	reasonWrongToken = 2
	reasonNoNumber   = 3
	reasonTooMany    = 4
	reasonTooManyOf  = 6
	reasonNotMaster  = 7
)

var reasons = []string{
	"the greeting wasn't understood",
	"not a principal",
	"the number was given to another client",
	"no number could be given",
	"too many clients",
	"the connection is that of another principal",
	"too many clients of this principal",
	"the server isn't master",
}

// TurnedAway is why the servers bind no connection for this client.
type TurnedAway struct{ Reason string }

func (why *TurnedAway) Error() string { return "tillermoss: " + why.Reason }

// ErrClosed is what calls of a client give that was closed.
var ErrClosed = errors.New("tillermoss: the client is closed")

// Options of a client.
type Options struct {
	// Patience is for how long a call that is refused for now is made again; 90 seconds where it is 0.
	Patience time.Duration
	// TLS is for servers that are reached as tls:HOST:PORT. It wants the client's certificate and the roots that are trusted.
	TLS *tls.Config
}

// Client keeps its session by goroutines of its own, and connects again where a connection is lost.
type Client struct {
	principal string
	options   Options
	client    uint64
	token     uint64
	// (these five are the keeper's: one goroutine at a time)
	servers []string
	told    string
	denying map[string]bool
	gone    context.Context
	stop    context.CancelFunc
	// calling has a place for the one call that is under way.
	calling chan struct{}
	begun   chan struct{}
	kept    chan struct{}

	guard         sync.Mutex
	session       *session
	schedule      *schedule
	connection    *connection
	fault         error
	hasBegun      bool
	subscriptions map[*Subscription]bool
}

// Connect waits for a session. Of several servers, with commas between, it goes to the one that is master. A server is HOST:PORT,
// unix:PATH or tls:HOST:PORT.
func Connect(ctx context.Context, servers, principal string, options Options) (*Client, error) {
	if !isComponent(principal) {
		return nil, &Refusal{Number: BadPrincipal}
	}
	if options.Patience == 0 {
		options.Patience = patience
	}
	it := &Client{principal: principal, options: options, servers: strings.Split(servers, ","), denying: map[string]bool{},
		calling: make(chan struct{}, 1), begun: make(chan struct{}), kept: make(chan struct{}), subscriptions: map[*Subscription]bool{}}
	it.gone, it.stop = context.WithCancel(context.Background())
	ctx, cancel := context.WithTimeout(ctx, options.Patience)
	defer cancel()
	connection, err := it.greetOne(ctx)
	if err != nil {
		it.stop()
		return nil, err
	}
	it.session, it.schedule = newSession(it.client, principal), newSchedule()
	go it.keep(connection)
	select {
	case <-it.begun:
	case <-ctx.Done():
		it.shut(ctx.Err())
	}
	it.guard.Lock()
	defer it.guard.Unlock()
	if err := it.check(); err != nil {
		it.stop()
		return nil, err
	}
	return it, nil
}

// Close ends the session, and waits for that for 2 seconds at most: its locks are free then, its ephemeral nodes go, and nothing waits for
// its cache. If no master answers by then, or another call is under way for so long, the session ends with its lease.
func (it *Client) Close() {
	ctx, cancel := context.WithTimeout(context.Background(), parting)
	defer cancel()
	select {
	case it.calling <- struct{}{}:
		for it.leaveOnce(ctx) {
			rest(ctx, callPause)
		}
		<-it.calling
	case <-ctx.Done():
	}
	it.shut(ErrClosed)
	<-it.kept
}

// leaveOnce asks for the end of the session, and says whether it is to be asked for again.
func (it *Client) leaveOnce(ctx context.Context) bool {
	it.guard.Lock()
	it.tell(it.session.note(now()))
	if it.fault != nil || it.session.state != live || ctx.Err() != nil {
		it.guard.Unlock()
		return false
	}
	if it.session.isInDanger {
		it.guard.Unlock()
		return true
	}
	call := it.session.leave()
	it.send(call.block)
	it.guard.Unlock()
	select {
	case <-call.done:
	case <-ctx.Done():
	}
	it.guard.Lock()
	defer it.guard.Unlock()
	return it.session.state == live
}

// shut lets no call go on.
func (it *Client) shut(why error) {
	it.guard.Lock()
	defer it.guard.Unlock()
	if it.fault == nil {
		it.fault = why
	}
	if it.session.state != left && it.session.state != lost {
		it.tell(it.session.lose(lost))
	}
	if it.connection != nil {
		it.connection.end()
	}
	it.stop()
}

func rest(ctx context.Context, pause time.Duration) {
	timer := time.NewTimer(pause)
	defer timer.Stop()
	select {
	case <-timer.C:
	case <-ctx.Done():
	}
}

// part is a random part of a pause, half at least, so that not all clients of a server that is gone come back at once.
func part(pause time.Duration) time.Duration {
	return pause/2 + time.Duration(rand.Int63n(int64(pause/2)+1))
}

// ---- the keeper's goroutine

// greetOne greets until a server takes the client, where there are several.
func (it *Client) greetOne(ctx context.Context) (*connection, error) {
	for {
		connection, err := it.greet(ctx, hello(it.principal))
		var turned *TurnedAway
		isOnlyOne := len(it.servers) == 1 && it.told == ""
		if err == nil || errors.As(err, &turned) || isOnlyOne || ctx.Err() != nil {
			return connection, err
		}
		rest(ctx, firstWait)
	}
}

// greet goes to the server that the last one told of, or else to the next one.
func (it *Client) greet(ctx context.Context, greeting []byte) (*connection, error) {
	server := it.told
	if it.told = ""; server == "" {
		server = it.servers[0]
	}
	connection, err := connect(ctx, server, it.options.TLS)
	if err == nil {
		var found welcome
		if found, err = connection.greet(greeting); err == nil {
			err = it.welcomed(found, server)
		}
		if err == nil {
			return connection, nil
		}
		connection.end()
	}
	it.servers = append(it.servers[1:], it.servers[0])
	return nil, err
}

// welcomed takes the number that a server gave, or gives why there is none. One server of several ends no session before the others said
// the same, or that it is master: one that was replaced doesn't know the numbers that its successor gave.
func (it *Client) welcomed(found welcome, server string) error {
	if found.isBound {
		it.client, it.token = found.client, found.token
		it.denying = map[string]bool{}
		return nil
	}
	if it.knows(found.master) || isFollowed(found.master, server) {
		it.told = found.master
	}
	reason := fmt.Sprintf("reason %d", found.reason)
	if int(found.reason) < len(reasons) {
		reason = reasons[found.reason]
	}
	switch found.reason {
	case reasonNotMaster:
		if !it.denying[place(found.master)] {
			return errors.New("tillermoss: " + reason)
		}
		fallthrough
	case reasonWrongToken:
		it.denying[place(server)] = true
		for _, one := range it.servers {
			if !it.denying[place(one)] {
				return errors.New("tillermoss: " + reason)
			}
		}
		return &TurnedAway{reasons[reasonWrongToken]}
	case reasonNoNumber, reasonTooMany, reasonTooManyOf:
		return errors.New("tillermoss: " + reason)
	}
	return &TurnedAway{reason}
}

func (it *Client) knows(server string) bool {
	for _, one := range it.servers {
		if server != "" && one == server {
			return true
		}
	}
	return false
}

func (it *Client) keep(connection *connection) {
	defer close(it.kept)
	defer it.stop()
	pause := firstWait
	for it.goesOn() {
		var err error
		if connection == nil {
			connection, err = it.greet(it.gone, helloAgain(it.principal, it.client, it.token))
		}
		if err == nil {
			pause = firstWait
			it.hear(connection)
			connection = nil
		}
		var turned *TurnedAway
		if errors.As(err, &turned) {
			it.shut(turned)
		}
		it.guard.Lock()
		it.connection = nil
		it.tell(it.session.note(now()))
		it.guard.Unlock()
		if it.goesOn() {
			rest(it.gone, part(pause))
			if pause *= 2; pause > lastWait {
				pause = lastWait
			}
		}
	}
	it.begin()
}

// begin says to who connects that there is a session, or none any more.
func (it *Client) begin() {
	it.guard.Lock()
	defer it.guard.Unlock()
	if !it.hasBegun {
		it.hasBegun = true
		close(it.begun)
	}
}

func (it *Client) goesOn() bool {
	it.guard.Lock()
	defer it.guard.Unlock()
	return it.fault == nil && (it.session.state == unstarted || it.session.state == live)
}

// hear takes what comes over a connection, and beats, until that ends.
func (it *Client) hear(connection *connection) {
	defer connection.end()
	blocks := make(chan []byte)
	go receive(connection, blocks)
	it.guard.Lock()
	it.connection = connection
	it.schedule.isAnswered = true
	look := it.beat(true)
	it.guard.Unlock()
	for it.goesOn() {
		timer := time.NewTimer(wait(look))
		var block []byte
		isOpen := true
		select {
		case block, isOpen = <-blocks:
		case <-timer.C:
		}
		timer.Stop()
		if !isOpen {
			return
		}
		var err error
		if look, err = it.turn(block); err != nil {
			return
		}
	}
}

// wait is until a moment of the clock that goes on while the machine sleeps.
func wait(due int64) time.Duration {
	left := time.Duration(max(due-now(), 0)) * time.Millisecond
	if left > longestWait {
		return longestWait
	}
	return left
}

func receive(connection *connection, blocks chan<- []byte) {
	defer close(blocks)
	for {
		block, err := connection.next()
		if err != nil {
			return
		}
		select {
		case blocks <- block:
		case <-connection.ended:
			return
		}
	}
}

// turn takes a block, if there is one, and beats where that is due. It gives when the clock is to be looked at next.
func (it *Client) turn(block []byte) (int64, error) {
	var taken *message
	if block != nil {
		var err error
		if taken, err = readMessage(block); err != nil {
			return 0, err
		}
	}
	it.guard.Lock()
	if taken != nil {
		it.take(taken)
	}
	it.tell(it.session.note(now()))
	look := it.nextLook()
	if now() >= it.schedule.due {
		look = it.beat(!it.schedule.isAnswered)
	}
	hasSession := it.session.state != unstarted
	it.guard.Unlock()
	if hasSession {
		it.begin()
	}
	return look, nil
}

// nextLook is when the next Beat is due, or the lease ends, if that is earlier: who holds a lock hears of it at once.
func (it *Client) nextLook() int64 {
	if until := it.session.lease.until(); it.session.state == live && !it.session.isInDanger && until < it.schedule.due {
		return until
	}
	return it.schedule.due
}

func (it *Client) take(message *message) {
	call := it.session.waiting
	if message.kind != kindNotice {
		it.tell(it.session.give(now(), message))
	} else if call != nil && message.number == call.number {
		call.limit = message.text
	}
	it.schedule.heard(now(), message)
}

// beat beats; and sends the call that has no reply yet again, where its message or the reply may be lost.
func (it *Client) beat(isAgain bool) int64 {
	moment := now()
	it.tell(it.session.note(moment))
	if block := it.session.beat(moment); block != nil {
		it.send(block)
		it.schedule.beaten(moment, it.session.beats, it.session.lease.until())
	}
	if isAgain && it.session.waiting != nil {
		it.send(it.session.waiting.block)
	}
	return it.nextLook()
}

// send has a block written. What is lost with a connection goes again with the next one.
func (it *Client) send(block []byte) {
	if it.connection != nil {
		it.connection.send(block)
	}
}

func (it *Client) tell(events []Event) {
	for _, event := range events {
		for subscription := range it.subscriptions {
			subscription.put(event)
		}
	}
}

// check says why no call can be made.
func (it *Client) check() error {
	switch {
	case it.fault != nil:
		return it.fault
	case it.session.state == lost:
		return &Refusal{Number: SessionExpired}
	case it.session.state != live || it.session.leaving:
		return &Refusal{Number: NoSession}
	case it.session.isInDanger:
		return &Refusal{Number: InJeopardy}
	}
	return nil
}
