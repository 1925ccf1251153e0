package tillermoss

import (
	"context"
	"sync"
)

// Subscription is a queue of what the client is told of from when it was made: of its session, and of handles with events.
type Subscription struct {
	client *Client
	guard  sync.Mutex
	events []Event
	more   chan struct{}
}

// Subscribe begins a queue. Close it when nobody takes from it any more.
func (it *Client) Subscribe() *Subscription {
	subscription := &Subscription{client: it, more: make(chan struct{}, 1)}
	it.guard.Lock()
	defer it.guard.Unlock()
	it.subscriptions[subscription] = true
	return subscription
}

// Close ends the queue.
func (it *Subscription) Close() {
	it.client.guard.Lock()
	defer it.client.guard.Unlock()
	delete(it.client.subscriptions, it)
}

func (it *Subscription) put(event Event) {
	it.guard.Lock()
	it.events = append(it.events, event)
	it.guard.Unlock()
	select {
	case it.more <- struct{}{}:
	default:
	}
}

func (it *Subscription) take() (Event, bool) {
	it.guard.Lock()
	defer it.guard.Unlock()
	if len(it.events) == 0 {
		return Event{}, false
	}
	event := it.events[0]
	it.events = it.events[1:]
	return event, true
}

// Next waits for the next event. After the last one of a client that is closed, or whose session is lost, it gives ErrClosed.
func (it *Subscription) Next(ctx context.Context) (Event, error) {
	for {
		if event, is := it.take(); is {
			return event, nil
		}
		select {
		case <-it.more:
			continue
		case <-it.client.gone.Done():
			if event, is := it.take(); is {
				return event, nil
			}
			return Event{}, ErrClosed
		case <-ctx.Done():
			return Event{}, ctx.Err()
		}
	}
}
