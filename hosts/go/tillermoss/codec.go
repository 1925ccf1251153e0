package tillermoss

import (
	"encoding/binary"
	"errors"
	"fmt"
	"math/big"
	"strings"
)

// The bytes of messages, as docs/PROTOCOL.md and docs/FORMATS.md give them.

const (
	version  = 2
	greeting = 1
)

// What a client sends, after the version.
const (
	kindStart = iota
	kindBeat
	kindCall
)

// What a master sends, and the notice of the server in front of it.
const (
	kindStarted = iota
	kindAlive
	kindReply
	kindRefused
	kindNotice
)

// The kinds of calls.
const (
	callOpen = iota
	callClose
	callRead
	callStat
	callList
	callSet
	callSetACL
	callDelete
	callAcquire
	callTryAcquire
	callRelease
	callGetSequencer
	callSetSequencer
	callCheckSequencer
	callLeave
)

const (
	contentLimit   = 262_144
	sequencerLimit = 532
	nameLimit      = 512
	componentLimit = 64
	// (a span above this is no lease that anybody waits for; below it nothing overflows)
	spanLimit = 1 << 50
)

// ErrMalformed is the reason of bytes that no server sends.
var ErrMalformed = errors.New("tillermoss: bytes that no server sends")

// View is a node as a read finds it.
type View struct {
	IsDirectory       bool
	Instance          uint64
	ContentGeneration uint64
	ACLGeneration     uint64
	// ACLs are the names of the ACLs to read, write and change.
	ACLs        [3]string
	IsEphemeral bool
	// Content is that of a file.
	Content []byte
	// Children are the last components of a directory's children, in the order of their bytes.
	Children []string
}

// copied is a view that its taker may change.
func (view *View) copied() *View {
	own := *view
	own.Content = append([]byte(nil), view.Content...)
	own.Children = append([]string(nil), view.Children...)
	return &own
}

// Stat is the numbers of a node.
type Stat struct {
	IsDirectory       bool
	Instance          uint64
	ContentGeneration uint64
	ACLGeneration     uint64
	LockGeneration    uint64
	ACLs              [3]string
	IsEphemeral       bool
	Length            uint64
}

// opened is what an Open gave.
type opened struct {
	handle      []byte
	instance    uint64
	isEphemeral bool
}

// Event is what a master tells of, or the client of its session.
type Event struct {
	// Kind is one of the Event constants.
	Kind string
	// Opened is the number of the handle that it is for, or 0.
	Opened     uint64
	Instance   uint64
	Generation uint64
	// Name is the child's, of an event of a directory.
	Name string
}

// The kinds of events: of the session by themselves, and then of a handle.
const (
	EventFailOver      = "failover"
	EventContents      = "contents"
	EventChildAdded    = "child-added"
	EventChildRemoved  = "child-removed"
	EventChildModified = "child-modified"
	EventInvalid       = "invalid"
	EventLocked        = "locked"
	EventConflict      = "conflict"
	EventLost          = "lost"
	EventJeopardy      = "jeopardy"
	EventSafe          = "safe"
)

var eventKinds = []string{EventFailOver, EventContents, EventChildAdded, EventChildRemoved, EventChildModified,
	EventInvalid, EventLocked, EventConflict, EventLost}

type invalidation struct {
	number uint64
	name   string
}

type numberedEvent struct {
	number uint64
	event  Event
}

// message is one of a master, or a notice of the server in front of it.
type message struct {
	kind          int
	client        uint64
	epoch         uint64
	number        uint64
	span          uint64
	invalidations []invalidation
	events        []numberedEvent
	hasStamp      bool
	stamp         uint64
	// result is *opened, *View, *Stat, []byte, *Refusal, or nil where something is done.
	result any
	// listed says that a view is of a List.
	listed bool
	text   string
}

// ---- what a client sends

func word(block []byte, number uint64) []byte {
	return binary.BigEndian.AppendUint64(block, number)
}

func sized(block []byte, content []byte) []byte {
	return append(binary.BigEndian.AppendUint32(block, uint32(len(content))), content...)
}

func flag(block []byte, is bool) []byte {
	if is {
		return append(block, 1)
	}
	return append(block, 0)
}

func hello(principal string) []byte {
	return sized([]byte{greeting, 0}, []byte(principal))
}

func helloAgain(principal string, client, token uint64) []byte {
	return word(word(sized([]byte{greeting, 1}, []byte(principal)), client), token)
}

func start(client, number uint64, principal string) []byte {
	return sized(word(word([]byte{version, kindStart}, client), number), []byte(principal))
}

func beat(client, epoch, number, invalidations, events uint64) []byte {
	block := []byte{version, kindBeat}
	for _, field := range []uint64{client, epoch, number, invalidations, events} {
		block = word(block, field)
	}
	return block
}

func call(client, epoch, number uint64, body, sequencer []byte) []byte {
	block := append(word(word(word([]byte{version, kindCall}, client), epoch), number), body...)
	if sequencer == nil {
		return append(block, 0)
	}
	return sized(append(block, 1), sequencer)
}

// creation is what an Open may make.
type creation struct {
	must, isDirectory, isEphemeral bool
	content                        []byte
	acls                           *[3]string
}

func opening(name string, mode Mode, made *creation, delay uint64, events Events) []byte {
	block := append(sized([]byte{callOpen}, []byte(name)), byte(mode))
	if made == nil {
		block = append(block, 0)
	} else {
		block = flag(flag(append(block, 1), made.must), made.isDirectory)
		if !made.isDirectory {
			block = sized(block, made.content)
		}
		block = flag(flag(block, made.isEphemeral), made.acls != nil)
		if made.acls != nil {
			block = namesOfACLs(block, *made.acls)
		}
	}
	return append(word(block, delay), byte(events))
}

func namesOfACLs(block []byte, acls [3]string) []byte {
	for _, name := range acls {
		block = sized(block, []byte(name))
	}
	return block
}

func onHandle(kind byte, handle []byte) []byte {
	return sized([]byte{kind}, handle)
}

func generationOrNone(block []byte, generation *uint64) []byte {
	if generation == nil {
		return append(block, 0)
	}
	return word(append(block, 1), *generation)
}

// isComponent says whether a text may stand between the slashes of a name, or be a principal.
func isComponent(text string) bool {
	if len(text) == 0 || len(text) > componentLimit || text == "." || text == ".." {
		return false
	}
	return strings.Trim(text, "abcdefghijklmnopqrstuvwxyz0123456789._-") == ""
}

// isName says whether a text is the whole name of a node.
func isName(text string) bool {
	if len(text) > nameLimit || !strings.HasPrefix(text, "/ls/") {
		return false
	}
	for _, component := range strings.Split(text[len("/ls/"):], "/") {
		if !isComponent(component) {
			return false
		}
	}
	return true
}

// FencingNumber is the number of up to 128 bits in a sequencer: it rises from one holder of a name to the next.
func FencingNumber(sequencer []byte) (*big.Int, error) {
	const head = 20
	if len(sequencer) < head || sequencer[0] != 1 || len(sequencer) != head+int(binary.BigEndian.Uint16(sequencer[18:head])) {
		return nil, ErrMalformed
	}
	return new(big.Int).SetBytes(sequencer[2:18]), nil
}

// ---- what a server sends

// fields takes fields from the left of a block. If one isn't there, all that follow are empty, and wrong says so.
type fields struct {
	block []byte
	wrong bool
}

func (left *fields) take(count uint64) []byte {
	if left.wrong || count > uint64(len(left.block)) {
		left.wrong = true
		return nil
	}
	taken := left.block[:count]
	left.block = left.block[count:]
	return taken
}

func (left *fields) byte() byte {
	if taken := left.take(1); taken != nil {
		return taken[0]
	}
	return 0
}

func (left *fields) choice(count int) int {
	found := int(left.byte())
	if found >= count {
		left.wrong = true
		return 0
	}
	return found
}

func (left *fields) word() uint64 {
	if taken := left.take(8); taken != nil {
		return binary.BigEndian.Uint64(taken)
	}
	return 0
}

func (left *fields) count() uint64 {
	if taken := left.take(4); taken != nil {
		return uint64(binary.BigEndian.Uint32(taken))
	}
	return 0
}

func (left *fields) sized() []byte {
	return append([]byte(nil), left.take(left.count())...)
}

func (left *fields) text() string {
	return string(left.take(left.count()))
}

func (left *fields) component() string {
	text := left.text()
	left.wrong = left.wrong || !isComponent(text)
	return text
}

func (left *fields) name() string {
	text := left.text()
	left.wrong = left.wrong || !isName(text)
	return text
}

// each reads a list. A count that says more than stands there ends with the bytes.
func (left *fields) each(read func()) {
	for count := left.count(); count > 0 && !left.wrong; count-- {
		read()
	}
}

// ended is the reason where a field wasn't there, or where more stands after the last one.
func (left *fields) ended() error {
	if left.wrong || len(left.block) > 0 {
		return ErrMalformed
	}
	return nil
}

// welcome is what a server says to a greeting: the client's number and its token, or why there is none, and where the master is.
type welcome struct {
	isBound       bool
	client, token uint64
	reason        byte
	master        string
}

func readWelcome(block []byte) (welcome, error) {
	left := &fields{block: block}
	left.wrong = left.byte() != greeting
	found := welcome{isBound: left.choice(2) == 0}
	if found.isBound {
		found.client, found.token = left.word(), left.word()
	} else if found.reason = left.byte(); found.reason == reasonNotMaster {
		found.master = left.text()
	}
	return found, left.ended()
}

func readRefusal(left *fields) *Refusal {
	refusal := &Refusal{Number: int(left.byte()) + 1}
	if refusal.Number > len(refusalNames) {
		left.wrong = true
		return refusal
	}
	switch refusal.Number {
	case WrongKind:
		refusal.Word = []string{"file", "dir"}[left.choice(2)]
	case Denied:
		refusal.Word = []string{"read", "write", "change"}[left.choice(3)]
	case Held:
		refusal.Word = []string{"x", "s"}[left.choice(2)]
	case WrongGeneration, BadAck, Delayed, OldEpoch, PassMissing, ReceiptApart, NoRoom:
		refusal.HasArgument, refusal.Argument = true, left.word()
	}
	return refusal
}

func readEvent(left *fields) Event {
	event := Event{Kind: eventKinds[left.choice(len(eventKinds))]}
	switch event.Kind {
	case EventFailOver, EventLost:
	case EventContents:
		event.Opened, event.Instance, event.Generation = left.word(), left.word(), left.word()
	case EventChildAdded, EventChildRemoved, EventChildModified:
		event.Opened, event.Name = left.word(), left.name()
	default:
		event.Opened = left.word()
	}
	return event
}

func readView(left *fields) *View {
	view := &View{IsDirectory: left.choice(2) == 1}
	view.Instance, view.ContentGeneration, view.ACLGeneration = left.word(), left.word(), left.word()
	for at := range view.ACLs {
		view.ACLs[at] = left.component()
	}
	view.IsEphemeral = left.choice(2) == 1
	view.Content = left.sized()
	left.each(func() { view.Children = append(view.Children, left.component()) })
	left.wrong = left.wrong || !view.IsDirectory && len(view.Children) > 0
	return view
}

func readStat(left *fields) *Stat {
	stat := &Stat{IsDirectory: left.choice(2) == 1}
	stat.Instance, stat.ContentGeneration = left.word(), left.word()
	stat.ACLGeneration, stat.LockGeneration = left.word(), left.word()
	for at := range stat.ACLs {
		stat.ACLs[at] = left.component()
	}
	stat.IsEphemeral = left.choice(2) == 1
	stat.Length = left.word()
	return stat
}

func readResult(left *fields, found *message) {
	switch kind := left.choice(8); kind {
	case 0:
		found.result = &opened{left.sized(), left.word(), left.choice(2) == 1}
	case 2, 4:
		found.result, found.listed = readView(left), kind == 4
	case 3:
		found.result = readStat(left)
	case 5:
		found.result = left.sized()
	case 7:
		found.result = readRefusal(left)
	}
}

// readMessage reads what a server sends after its welcome.
func readMessage(block []byte) (*message, error) {
	left := &fields{block: block}
	left.wrong = left.byte() != version
	found := &message{kind: left.choice(kindNotice + 1)}
	if found.kind == kindNotice {
		found.number = left.word()
		found.text = strings.ToValidUTF8(string(left.block), "\uFFFD")
		left.block = nil
		return found, left.ended()
	}
	found.client, found.epoch, found.number = left.word(), left.word(), left.word()
	switch found.kind {
	case kindStarted:
		found.span = left.word()
	case kindAlive:
		found.span = left.word()
		left.each(func() { found.invalidations = append(found.invalidations, invalidation{left.word(), left.name()}) })
		left.each(func() { found.events = append(found.events, numberedEvent{left.word(), readEvent(left)}) })
	case kindReply:
		if found.hasStamp = left.choice(2) == 1; found.hasStamp {
			found.stamp = left.word()
		}
		readResult(left, found)
	default:
		found.result = readRefusal(left)
	}
	return found, left.ended()
}

// ---- why something is refused

// The refusals' numbers, as docs/FORMATS.md lists them.
const (
	NoMemory = iota + 1
	BadName
	OtherCell
	BadPrincipal
	BadACL
	NotFound
	Exists
	WrongKind
	NotEmpty
	Denied
	WrongGeneration
	TooLarge
	Exhausted
	StaleInstance
	StoreRefused
	StoreDamaged
	BadHandle
	BadSequencer
	NoSession
	BadAck
	Repeat
	Busy
	Held
	Delayed
	NotHolder
	SequencerStale
	DelayTooLong
	OldEpoch
	Recovering
	InJeopardy
	SessionExpired
	Poisoned
	CallOutstanding
	Unknown
	ProtocolFault
	UnfairClock
	NoSuchMessage
	MasterDown
	MasterUp
	WatchFull
	PassMissing
	ReceiptApart
	NoRoom
)

var refusalNames = strings.Fields("NoMemory BadName OtherCell BadPrincipal BadAcl NotFound Exists WrongKind NotEmpty Denied " +
	"WrongGeneration TooLarge Exhausted StaleInstance StoreRefused StoreDamaged BadHandle BadSequencer NoSession BadAck Repeat " +
	"Busy Held Delayed NotHolder SequencerStale DelayTooLong OldEpoch Recovering InJeopardy SessionExpired Poisoned " +
	"CallOutstanding Unknown ProtocolFault UnfairClock NoSuchMessage MasterDown MasterUp WatchFull PassMissing ReceiptApart " +
	"NoRoom")

// Refusal is why the master, or the client, refuses a call.
type Refusal struct {
	// Number is one of the constants above.
	Number int
	// HasArgument says whether Argument is one.
	HasArgument bool
	Argument    uint64
	// Word is the argument of those that have a word: the kind of the node, the right that is missing, the mode of the lock.
	Word string
	// Limit says which limit of the server was met, if one was.
	Limit string
}

// Name is the refusal's name.
func (refusal *Refusal) Name() string {
	return refusalNames[refusal.Number-1]
}

// Error is the name, with the argument.
func (refusal *Refusal) Error() string {
	switch {
	case refusal.Limit != "":
		return refusal.Limit
	case refusal.Word != "":
		return refusal.Name() + " " + refusal.Word
	case refusal.HasArgument:
		return fmt.Sprintf("%s %d", refusal.Name(), refusal.Argument)
	}
	return refusal.Name()
}

// IsRefused says whether an error is the refusal of that number.
func IsRefused(err error, number int) bool {
	var refusal *Refusal
	return errors.As(err, &refusal) && refusal.Number == number
}
