package tillermoss

import (
	"context"
	"math/big"
	"time"
)

// Mode is what a handle is for.
type Mode byte

// What is added in a Mode.
const (
	ModeRead      Mode = 1
	ModeWrite     Mode = 2
	ModeChange    Mode = 4
	ModeReadWrite      = ModeRead | ModeWrite
)

// Events are those that a handle is told of.
type Events byte

// What is added in Events.
const (
	EventsContents Events = 1
	EventsChildren Events = 2
	EventsLock     Events = 4
	EventsConflict Events = 8
)

// LockMode is how a lock is held.
type LockMode byte

// The modes of a lock.
const (
	Exclusive LockMode = 0
	Shared    LockMode = 1
)

// OpenOptions say how a node is opened. A node that isn't there is made where one of Make, Directory and Must is set.
type OpenOptions struct {
	// Mode is ModeRead where it is 0.
	Mode Mode
	// Make is the content of a file that is made; one that isn't nil says that it may be made.
	Make []byte
	// Directory says that a directory may be made.
	Directory bool
	// Must says that the node may not be there.
	Must bool
	// Ephemeral says that what is made goes with its last handle.
	Ephemeral bool
	// ACLs are those of what is made, to read, write and change; its parent's where it is nil.
	ACLs *[3]string
	// Events are told to each Subscription of the client.
	Events Events
	// Delay is for how long nobody gets the node's lock after its holder was lost, 60 seconds at most.
	Delay time.Duration
}

// Handle is a node that is open.
type Handle struct {
	name     string
	content  []byte
	instance uint64
	opened   uint64
	mayRead  bool
	// (under the client's guard)
	sequencer []byte
}

// Name is the name under which the node was opened.
func (it *Handle) Name() string { return it.name }

// Instance is the node's number, which no other node of this cell has.
func (it *Handle) Instance() uint64 { return it.instance }

// Opened is the number by which events of this handle are told.
func (it *Handle) Opened() uint64 { return it.opened }

// request is a call, and what is to be made of its answer.
type request struct {
	body           []byte
	handle         *Handle
	name           string
	sequencer      []byte
	onlyReads      bool
	teachesView    bool
	teachesAbsence bool
	// undo is a call that takes back what this one was given where nobody waits for that any more; nil where there is nothing.
	undo func(result any) []byte
}

// call makes a call, again while it is refused for now; one that only reads also where its outcome got lost. It gives the result, and the
// number of the call.
func (it *Client) call(ctx context.Context, request request) (any, uint64, error) {
	ends := time.Now().Add(it.options.Patience)
	for {
		result, number, err := it.callOnce(ctx, request)
		if err == nil || !isForNow(err, request.onlyReads) || time.Now().After(ends) {
			return result, number, err
		}
		rest(ctx, callPause)
		if ctx.Err() != nil {
			return nil, 0, ctx.Err()
		}
	}
}

func isForNow(err error, onlyReads bool) bool {
	refusal, is := err.(*Refusal)
	if !is || refusal.Limit != "" {
		return false
	}
	switch refusal.Number {
	case Busy, Recovering, InJeopardy:
		return true
	case Unknown:
		return onlyReads
	}
	return false
}

func (it *Client) callOnce(ctx context.Context, request request) (any, uint64, error) {
	select {
	case it.calling <- struct{}{}:
	case <-ctx.Done():
		return nil, 0, ctx.Err()
	}
	call, err := it.ask(request)
	if err != nil {
		<-it.calling
		return nil, 0, err
	}
	select {
	case <-call.done:
		<-it.calling
	case <-ctx.Done():
		// (the call stays under way until its answer comes)
		go it.abandon(call, request)
		return nil, 0, ctx.Err()
	}
	if refusal, is := call.result.(*Refusal); is {
		return nil, 0, refusal
	}
	return call.result, call.number, nil
}

// ask has a call sent. The place in calling is its own.
func (it *Client) ask(request request) (*waiting, error) {
	it.guard.Lock()
	defer it.guard.Unlock()
	it.tell(it.session.note(now()))
	if err := it.check(); err != nil {
		return nil, err
	}
	sequencer := request.sequencer
	if sequencer == nil && request.handle != nil {
		sequencer = request.handle.sequencer
	}
	call := it.session.ask(request.body, sequencer)
	call.name, call.teachesView, call.teachesAbsence = request.name, request.teachesView, request.teachesAbsence
	it.send(call.block)
	return call, nil
}

// abandon waits for the answer that nobody wants any more, and takes back what it gave. Meanwhile no other call is under way.
func (it *Client) abandon(call *waiting, request request) {
	defer func() { <-it.calling }()
	<-call.done
	if request.undo == nil {
		return
	}
	body := request.undo(call.result)
	for body != nil {
		back, err := it.ask(requestOf(body))
		if err == nil {
			<-back.done
			if refusal, is := back.result.(*Refusal); is {
				err = refusal
			}
		}
		if err == nil || !isForNow(err, true) || it.gone.Err() != nil {
			return
		}
		rest(it.gone, callPause)
	}
}

func requestOf(body []byte) request { return request{body: body} }

// Open opens a node; one that isn't there is made where the options say so.
func (it *Client) Open(ctx context.Context, name string, options OpenOptions) (*Handle, error) {
	if err := mayBeOpened(name, options); err != nil {
		return nil, err
	}
	if options.Mode == 0 {
		options.Mode = ModeRead
	}
	makes := options.Make != nil || options.Directory || options.Must
	if !options.Must {
		// (an Open that may make a node waits until all who cache it have let it go)
		handle, err := it.openAs(ctx, name, options, nil)
		if !makes || !IsRefused(err, NotFound) {
			return handle, err
		}
	}
	made := &creation{options.Must, options.Directory, options.Ephemeral, options.Make, options.ACLs}
	return it.openAs(ctx, name, options, made)
}

// mayBeOpened refuses what no server takes before it is sent: each such message would end the connection, until the session is lost.
func mayBeOpened(name string, options OpenOptions) error {
	if !isName(name) {
		return &Refusal{Number: BadName}
	}
	if options.ACLs != nil {
		for _, acl := range options.ACLs {
			if !isComponent(acl) {
				return &Refusal{Number: BadName}
			}
		}
	}
	if len(options.Make) > contentLimit {
		return &Refusal{Number: TooLarge}
	}
	if options.Mode > 7 || options.Events > 15 {
		return &Refusal{Number: ProtocolFault}
	}
	if options.Delay < 0 || options.Delay > time.Minute {
		return &Refusal{Number: DelayTooLong}
	}
	return nil
}

func (it *Client) openAs(ctx context.Context, name string, options OpenOptions, made *creation) (*Handle, error) {
	if made == nil {
		if view, _, is := it.served(name, nil); is && view == nil {
			return nil, &Refusal{Number: NotFound}
		}
	}
	body := opening(name, options.Mode, made, uint64(options.Delay.Milliseconds()), options.Events)
	undo := func(result any) []byte {
		if found, is := result.(*opened); is {
			return onHandle(callClose, found.handle)
		}
		return nil
	}
	result, number, err := it.call(ctx, request{body: body, name: name, teachesAbsence: made == nil, undo: undo})
	if err != nil {
		return nil, err
	}
	found, is := result.(*opened)
	if !is {
		return nil, &Refusal{Number: ProtocolFault}
	}
	return &Handle{name: name, content: found.handle, instance: found.instance, opened: number, mayRead: options.Mode&ModeRead != 0}, nil
}

// served is what the cache answers at this moment for a name, on a handle if there is one, which may not have a sequencer.
func (it *Client) served(name string, handle *Handle) (*View, error, bool) {
	it.guard.Lock()
	defer it.guard.Unlock()
	moment := now()
	it.tell(it.session.note(moment))
	if it.check() != nil || handle != nil && (!handle.mayRead || handle.sequencer != nil) {
		return nil, nil, false
	}
	view, is := it.session.cached(moment, name)
	if is && handle != nil && (view == nil || view.Instance != handle.instance) {
		return nil, &Refusal{Number: StaleInstance}, true
	}
	return view, nil, is
}

// Read reads a node, out of the cache where that holds it under a lease that runs. The view is the caller's own.
func (it *Client) Read(ctx context.Context, handle *Handle) (*View, error) {
	view, _, err := it.read(ctx, handle, callRead)
	return view, err
}

// ReadCached is as Read, and says whether the cache answered.
func (it *Client) ReadCached(ctx context.Context, handle *Handle) (*View, bool, error) {
	return it.read(ctx, handle, callRead)
}

// List gives the last components of a directory's children, in the order of their bytes.
func (it *Client) List(ctx context.Context, handle *Handle) ([]string, error) {
	view, _, err := it.read(ctx, handle, callList)
	if err != nil {
		return nil, err
	}
	return view.Children, nil
}

// read says of a view, too, whether the cache answered.
func (it *Client) read(ctx context.Context, handle *Handle, kind byte) (*View, bool, error) {
	if err := ctx.Err(); err != nil {
		return nil, false, err
	}
	if view, err, is := it.served(handle.name, handle); is && (kind == callRead || err != nil || view.IsDirectory) {
		if err != nil {
			return nil, true, err
		}
		return view.copied(), true, nil
	}
	result, _, err := it.call(ctx, request{body: onHandle(kind, handle.content), handle: handle, name: handle.name, onlyReads: true, teachesView: true})
	if err != nil {
		return nil, false, err
	}
	view, is := result.(*View)
	if !is {
		return nil, false, &Refusal{Number: ProtocolFault}
	}
	return view.copied(), false, nil
}

// Stat gives the numbers of a node, from the master.
func (it *Client) Stat(ctx context.Context, handle *Handle) (*Stat, error) {
	result, _, err := it.call(ctx, request{body: onHandle(callStat, handle.content), handle: handle, onlyReads: true})
	if err != nil {
		return nil, err
	}
	if stat, is := result.(*Stat); is {
		return stat, nil
	}
	return nil, &Refusal{Number: ProtocolFault}
}

func (it *Client) change(ctx context.Context, handle *Handle, body []byte) error {
	_, _, err := it.call(ctx, request{body: body, handle: handle})
	return err
}

// Set gives a file a new content.
func (it *Client) Set(ctx context.Context, handle *Handle, content []byte) error {
	return it.set(ctx, handle, content, nil)
}

// SetIf gives a file a new content where its content has that generation.
func (it *Client) SetIf(ctx context.Context, handle *Handle, content []byte, generation uint64) error {
	return it.set(ctx, handle, content, &generation)
}

func (it *Client) set(ctx context.Context, handle *Handle, content []byte, generation *uint64) error {
	if len(content) > contentLimit {
		return &Refusal{Number: TooLarge}
	}
	return it.change(ctx, handle, generationOrNone(sized(onHandle(callSet, handle.content), content), generation))
}

// SetACL gives a node other ACLs, to read, write and change.
func (it *Client) SetACL(ctx context.Context, handle *Handle, acls [3]string) error {
	for _, acl := range acls {
		if !isComponent(acl) {
			return &Refusal{Number: BadName}
		}
	}
	return it.change(ctx, handle, generationOrNone(namesOfACLs(onHandle(callSetACL, handle.content), acls), nil))
}

// Delete ends a node.
func (it *Client) Delete(ctx context.Context, handle *Handle) error {
	return it.change(ctx, handle, onHandle(callDelete, handle.content))
}

// CloseHandle ends a handle.
func (it *Client) CloseHandle(ctx context.Context, handle *Handle) error {
	return it.change(ctx, nil, onHandle(callClose, handle.content))
}

// Acquire waits until the node's lock is held. If the context ends before that, the call stays under way and the client's other calls
// wait for it; the lock is given back once it comes. Use a client of its own for each lock that may have to be waited for.
func (it *Client) Acquire(ctx context.Context, handle *Handle, mode LockMode) error {
	return it.acquire(ctx, handle, mode, callAcquire)
}

// TryAcquire gets the node's lock, or is refused as Held or Delayed.
func (it *Client) TryAcquire(ctx context.Context, handle *Handle, mode LockMode) error {
	return it.acquire(ctx, handle, mode, callTryAcquire)
}

func (it *Client) acquire(ctx context.Context, handle *Handle, mode LockMode, kind byte) error {
	if mode > Shared {
		return &Refusal{Number: ProtocolFault}
	}
	undo := func(result any) []byte {
		if refusal, is := result.(*Refusal); is && refusal.Number != Unknown {
			return nil
		}
		return onHandle(callRelease, handle.content)
	}
	_, _, err := it.call(ctx, request{body: append(onHandle(kind, handle.content), byte(mode)), handle: handle, undo: undo})
	return err
}

// Release gives the node's lock back.
func (it *Client) Release(ctx context.Context, handle *Handle) error {
	return it.change(ctx, handle, onHandle(callRelease, handle.content))
}

// Sequencer gives bytes by which another program can test that the handle's lock is still held.
func (it *Client) Sequencer(ctx context.Context, handle *Handle) ([]byte, error) {
	result, _, err := it.call(ctx, request{body: onHandle(callGetSequencer, handle.content), handle: handle, onlyReads: true})
	if err != nil {
		return nil, err
	}
	if sequencer, is := result.([]byte); is {
		return sequencer, nil
	}
	return nil, &Refusal{Number: ProtocolFault}
}

// FencingNumber gives a number of up to 128 bits that rises from one holder of the node's name to the next, also where the node was
// deleted and made again. Who keeps the greatest that it has seen, and refuses a smaller one, is written to by no holder of before.
func (it *Client) FencingNumber(ctx context.Context, handle *Handle) (*big.Int, error) {
	sequencer, err := it.Sequencer(ctx, handle)
	if err != nil {
		return nil, err
	}
	return FencingNumber(sequencer)
}

// SetSequencer has the handle's later calls stand under this sequencer; the cache answers none of them.
func (it *Client) SetSequencer(ctx context.Context, handle *Handle, sequencer []byte) error {
	if len(sequencer) > sequencerLimit {
		return &Refusal{Number: BadSequencer}
	}
	own := append([]byte{}, sequencer...)
	if _, _, err := it.call(ctx, request{body: onHandle(callSetSequencer, handle.content), handle: handle, sequencer: own}); err != nil {
		return err
	}
	it.guard.Lock()
	defer it.guard.Unlock()
	handle.sequencer = own
	return nil
}

// CheckSequencer is refused as SequencerStale where the sequencer isn't valid any more.
func (it *Client) CheckSequencer(ctx context.Context, sequencer []byte) error {
	if len(sequencer) > sequencerLimit {
		return &Refusal{Number: BadSequencer}
	}
	_, _, err := it.call(ctx, request{body: sized([]byte{callCheckSequencer}, sequencer), onlyReads: true})
	return err
}
