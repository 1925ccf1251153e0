// Elect stands for primary: it waits for the lock of a file, writes into it who it is, and does its work as long as it is certain that it
// holds the lock.
//
// Usage: go run ./examples/elect SERVER NAME OWN_NAME
package main

import (
	"context"
	"fmt"
	"os"
	"os/signal"

	"tillermoss"
)

func main() {
	if len(os.Args) != 4 {
		fmt.Fprintln(os.Stderr, "usage: elect SERVER NAME OWN_NAME")
		os.Exit(2)
	}
	if err := stand(os.Args[1], os.Args[2], os.Args[3]); err != nil {
		fmt.Fprintln(os.Stderr, "elect:", err)
		os.Exit(1)
	}
}

func stand(server, name, own string) error {
	ctx, stop := signal.NotifyContext(context.Background(), os.Interrupt)
	defer stop()
	client, err := tillermoss.Connect(ctx, server, "ann", tillermoss.Options{})
	if err != nil {
		return err
	}
	defer client.Close()
	lock, err := client.Elect(ctx, name, []byte(own))
	if err != nil {
		return err
	}
	// Whoever gets the sequencer along with a request asks the cell whether it still holds: CheckSequencer. Who can only compare numbers
	// takes the fencing number, which is greater with each primary.
	fmt.Printf("%s is primary, by %x\n", own, lock.Sequencer)
	select {
	case <-lock.Context().Done():
		fmt.Printf("%s stops: it isn't certain that it is primary\n", own)
		return nil
	case <-ctx.Done():
		fmt.Printf("%s stands down\n", own)
		return lock.Unlock(context.Background())
	}
}
