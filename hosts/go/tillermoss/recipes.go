package tillermoss

import (
	"context"
	"math/big"
	"reflect"
	"time"
)

// A name that isn't there is looked for so often; the cache answers.
const absencePause = 100 * time.Millisecond

// Watch shows a node to each: as it is, and then after each change; nil where it isn't there. Of changes that follow each other closely
// it shows the last. It goes on until the context ends, the session is lost, or each gives an error.
func (it *Client) Watch(ctx context.Context, name string, each func(*View) error) error {
	subscription := it.Subscribe()
	defer subscription.Close()
	var handle *Handle
	var shown *View
	isFirst := true
	defer func() {
		if handle != nil {
			_ = it.CloseHandle(it.gone, handle)
		}
	}()
	for {
		view, err := it.look(ctx, name, &handle)
		if err != nil {
			return err
		}
		if isFirst || !reflect.DeepEqual(view, shown) {
			shown, isFirst = view, false
			if err := each(view.orNone()); err != nil {
				return err
			}
		}
		if err := it.untilChanged(ctx, subscription, handle); err != nil {
			return err
		}
	}
}

// orNone is a view that its taker may change, or nil.
func (view *View) orNone() *View {
	if view == nil {
		return nil
	}
	return view.copied()
}

// look reads what stands under a name now, and opens that where it is another node than before.
func (it *Client) look(ctx context.Context, name string, handle **Handle) (*View, error) {
	for {
		if *handle == nil {
			found, err := it.Open(ctx, name, OpenOptions{Events: EventsContents | EventsChildren})
			if IsRefused(err, NotFound) {
				return nil, nil
			}
			if IsRefused(err, Unknown) {
				continue
			}
			if err != nil {
				return nil, err
			}
			*handle = found
		}
		view, err := it.Read(ctx, *handle)
		if !IsRefused(err, StaleInstance) && !IsRefused(err, Poisoned) && !IsRefused(err, BadHandle) {
			return view, err
		}
		_ = it.CloseHandle(ctx, *handle)
		*handle = nil
	}
}

func (it *Client) untilChanged(ctx context.Context, subscription *Subscription, handle *Handle) error {
	if handle == nil {
		rest(ctx, absencePause)
		return ctx.Err()
	}
	for {
		event, err := subscription.Next(ctx)
		switch {
		case err != nil:
			return err
		case event.Kind == EventLost:
			return &Refusal{Number: SessionExpired}
		case event.Opened == handle.opened, event.Kind == EventFailOver, event.Kind == EventSafe:
			return nil
		}
	}
}

// Lock is a lock that is held.
type Lock struct {
	// Sequencer is bytes by which another program can test that this lock is still held.
	Sequencer []byte
	// Number rises from one holder of the name to the next.
	Number *big.Int
	client *Client
	handle *Handle
	holds  context.Context
	end    context.CancelFunc
}

// Lock waits for the exclusive lock of a file, which is made where it isn't there. After a holder was lost nobody gets it for the delay.
// Use a client of its own for each lock that may have to be waited for.
func (it *Client) Lock(ctx context.Context, name string, delay time.Duration) (*Lock, error) {
	handle, err := it.Open(ctx, name, OpenOptions{Mode: ModeReadWrite, Make: []byte{}, Delay: delay})
	if err != nil {
		return nil, err
	}
	if err := it.acquireSurely(ctx, handle); err != nil {
		// (where the lock may still come, this waits until it was given back)
		go func() { _ = it.CloseHandle(it.gone, handle) }()
		return nil, err
	}
	lock := &Lock{client: it, handle: handle}
	lock.holds, lock.end = context.WithCancel(context.Background())
	lock.guard()
	if lock.Sequencer, err = it.Sequencer(ctx, handle); err == nil {
		lock.Number, err = FencingNumber(lock.Sequencer)
	}
	if err != nil {
		// (the caller's context may be what has ended)
		_ = lock.Unlock(it.gone)
		return nil, err
	}
	return lock, nil
}

// acquireSurely waits for a lock, also where a fail-over took the answer with it.
func (it *Client) acquireSurely(ctx context.Context, handle *Handle) error {
	for {
		err := it.Acquire(ctx, handle, Exclusive)
		if !IsRefused(err, Unknown) {
			return err
		}
		if _, err = it.Sequencer(ctx, handle); !IsRefused(err, NotHolder) {
			return err
		}
	}
}

// guard ends what is done under the lock as soon as it isn't certain any more that it is held.
func (it *Lock) guard() {
	subscription := it.client.Subscribe()
	go func() {
		defer it.end()
		defer subscription.Close()
		it.client.guard.Lock()
		it.client.tell(it.client.session.note(now()))
		err := it.client.check()
		it.client.guard.Unlock()
		for err == nil {
			var event Event
			event, err = subscription.Next(it.holds)
			isInvalid := event.Kind == EventInvalid && event.Opened == it.handle.opened
			if isInvalid || event.Kind == EventJeopardy || event.Kind == EventLost {
				return
			}
		}
	}()
}

// Context ends as soon as it isn't certain any more that the lock is held: with the lease, with the session, and with Unlock. Work that
// the lock protects belongs under it.
func (it *Lock) Context() context.Context { return it.holds }

// Handle is that of the file whose lock it is.
func (it *Lock) Handle() *Handle { return it.handle }

// Unlock gives the lock back.
func (it *Lock) Unlock(ctx context.Context) error {
	it.end()
	if err := it.client.Release(ctx, it.handle); err != nil && !IsRefused(err, NotHolder) {
		return err
	}
	return it.client.CloseHandle(ctx, it.handle)
}

// Elect waits until this client is the primary of a name: it holds the file's lock, and the file says who it is.
func (it *Client) Elect(ctx context.Context, name string, who []byte) (*Lock, error) {
	lock, err := it.Lock(ctx, name, 0)
	if err != nil {
		return nil, err
	}
	for {
		err := it.Set(ctx, lock.handle, who)
		if err == nil {
			return lock, nil
		}
		if !IsRefused(err, Unknown) {
			_ = lock.Unlock(it.gone)
			return nil, err
		}
	}
}
