package tillermoss

import (
	"bufio"
	"context"
	"fmt"
	"os"
	"os/exec"
	"path/filepath"
	"strconv"
	"strings"
	"sync"
	"sync/atomic"
	"syscall"
	"testing"
	"time"
)

// The client beside a real server: TILLERMOSSD and CELLCTL name the two programs.

type server struct {
	test    *testing.T
	folder  string
	port    string
	address string
	socket  string
	child   *exec.Cmd
}

func serve(test *testing.T) *server {
	test.Helper()
	if os.Getenv("TILLERMOSSD") == "" {
		test.Skip("TILLERMOSSD names no server")
	}
	it := &server{test: test, folder: test.TempDir(), port: "0"}
	it.start()
	test.Cleanup(func() { it.stop(syscall.SIGTERM) })
	return it
}

func (it *server) start() {
	it.child = exec.Command(os.Getenv("TILLERMOSSD"), it.port, "unix:"+filepath.Join(it.folder, "cell"),
		"--store", filepath.Join(it.folder, "store.db"), "--master", os.Getenv("CELLCTL"))
	output, err := it.child.StdoutPipe()
	must(it.test, err)
	must(it.test, it.child.Start())
	lines := bufio.NewScanner(output)
	word := func() string {
		if !lines.Scan() {
			it.test.Fatal("the server says nothing")
		}
		return strings.Fields(lines.Text())[1]
	}
	it.address = strings.TrimPrefix(word(), "tcp:")
	it.socket = word()
	it.port = it.address[strings.LastIndex(it.address, ":")+1:]
}

func (it *server) stop(how syscall.Signal) {
	if it.child.ProcessState == nil {
		_ = it.child.Process.Signal(how)
		_ = it.child.Wait()
	}
}

func (it *server) client(principal string) *Client {
	it.test.Helper()
	client, err := Connect(patient(it.test), it.address, principal, Options{})
	must(it.test, err)
	it.test.Cleanup(client.Close)
	return client
}

// patient is a context that ends what would hang.
func patient(test *testing.T) context.Context {
	ctx, cancel := context.WithTimeout(context.Background(), 2*time.Minute)
	test.Cleanup(cancel)
	return ctx
}

func must(test *testing.T, err error) {
	test.Helper()
	if err != nil {
		test.Fatal(err)
	}
}

func equal(test *testing.T, found, wanted any) {
	test.Helper()
	if fmt.Sprint(found) != fmt.Sprint(wanted) {
		test.Fatalf("found %v, wanted %v", found, wanted)
	}
}

func refused(test *testing.T, err error, number int) {
	test.Helper()
	if !IsRefused(err, number) {
		test.Fatalf("found %v, wanted %s", err, refusalNames[number-1])
	}
}

func open(test *testing.T, client *Client, name string, options OpenOptions) *Handle {
	test.Helper()
	handle, err := client.Open(patient(test), name, options)
	must(test, err)
	return handle
}

func read(test *testing.T, client *Client, handle *Handle) (string, bool) {
	test.Helper()
	view, isServed, err := client.read(patient(test), handle, callRead)
	must(test, err)
	return string(view.Content), isServed
}

var writable = OpenOptions{Mode: ModeReadWrite, Make: []byte{}}

func TestAFileFromItsMakingToItsEnd(test *testing.T) {
	client, ctx := serve(test).client("ann"), patient(test)
	_, err := client.Open(ctx, "/ls/c/all", OpenOptions{})
	refused(test, err, NotFound)
	file := open(test, client, "/ls/c/all", OpenOptions{Mode: ModeReadWrite, Make: []byte("one"), Must: true})
	for _, wanted := range []bool{false, true} {
		content, isServed := read(test, client, file)
		equal(test, []any{content, isServed}, []any{"one", wanted})
	}
	must(test, client.SetIf(ctx, file, []byte("two"), 1))
	content, _ := read(test, client, file)
	equal(test, content, "two")
	refused(test, client.SetIf(ctx, file, []byte("three"), 1), WrongGeneration)
	stat, err := client.Stat(ctx, file)
	must(test, err)
	equal(test, []any{stat.Length, stat.ContentGeneration, stat.IsDirectory}, []any{3, 2, false})
	must(test, client.Delete(ctx, file))
	_, err = client.Read(ctx, file)
	refused(test, err, StaleInstance)
}

func TestAViewIsItsTakersOwn(test *testing.T) {
	client, ctx := serve(test).client("ann"), patient(test)
	file := open(test, client, "/ls/c/own", OpenOptions{Mode: ModeReadWrite, Make: []byte("one")})
	for range []int{1, 2, 3} {
		view, err := client.Read(ctx, file)
		must(test, err)
		equal(test, string(view.Content), "one")
		view.Content[0] = 'X'
	}
}

func TestDirectories(test *testing.T) {
	client, ctx := serve(test).client("ann"), patient(test)
	directory := open(test, client, "/ls/c/d", OpenOptions{Directory: true})
	for _, name := range []string{"b", "a"} {
		open(test, client, "/ls/c/d/"+name, writable)
	}
	for _, wanted := range []bool{false, true} {
		view, isServed, err := client.read(ctx, directory, callList)
		must(test, err)
		equal(test, []any{view.Children, isServed}, []any{[]string{"a", "b"}, wanted})
	}
}

func TestWhatIsMade(test *testing.T) {
	client, ctx := serve(test).client("ann"), patient(test)
	acls := [3]string{"base", "base", "base"}
	for name, options := range map[string]OpenOptions{
		"file": {Make: []byte{}}, "here": {Make: []byte{}, Ephemeral: true}, "dir": {Directory: true},
	} {
		options.Mode, options.Must, options.ACLs, options.Delay = ModeReadWrite, true, &acls, time.Second
		stat, err := client.Stat(ctx, open(test, client, "/ls/c/"+name, options))
		must(test, err)
		equal(test, []any{stat.IsDirectory, stat.IsEphemeral, stat.ACLs}, []any{options.Directory, options.Ephemeral, acls})
	}
}

func TestManyBytes(test *testing.T) {
	client, ctx := serve(test).client("ann"), patient(test)
	content := []byte(strings.Repeat("0123456789abcdef", contentLimit/16))
	file := open(test, client, "/ls/c/large", OpenOptions{Mode: ModeReadWrite, Make: content})
	found, _ := read(test, client, file)
	equal(test, found == string(content), true)
	refused(test, client.Set(ctx, file, append(content, 'x')), TooLarge)
}

func TestWhatNoServerTakesIsRefusedAtOnce(test *testing.T) {
	client, ctx := serve(test).client("ann"), patient(test)
	file := open(test, client, "/ls/c/f", OpenOptions{Mode: ModeReadWrite, Make: []byte("first")})
	for _, name := range []string{"f", "/ls/c/F", "/ls/c/", "/ls/c/é", "/ls/c/f\n", "/ls/" + strings.Repeat(strings.Repeat("a", 60)+"/", 8) + strings.Repeat("a", 60)} {
		_, err := client.Open(ctx, name, OpenOptions{})
		refused(test, err, BadName)
	}
	large := make([]byte, 1<<20)
	_, err := client.Open(ctx, "/ls/c/g", OpenOptions{Make: large})
	refused(test, err, TooLarge)
	refused(test, client.Set(ctx, file, large), TooLarge)
	refused(test, client.CheckSequencer(ctx, large), BadSequencer)
	refused(test, client.SetSequencer(ctx, file, large), BadSequencer)
	content, _ := read(test, client, file)
	equal(test, content, "first")
	must(test, client.Set(ctx, file, large[:contentLimit]))
}

func TestACacheNeverShowsWhatAWriteHasReplaced(test *testing.T) {
	server := serve(test)
	writer := server.client("ann")
	file := open(test, writer, "/ls/c/count", OpenOptions{Mode: ModeReadWrite, Make: []byte("0")})
	var written, served atomic.Int64
	var group sync.WaitGroup
	for at := 0; at < 3; at++ {
		client := server.client("bob")
		group.Add(1)
		go func() {
			defer group.Done()
			handle, err := client.Open(context.Background(), "/ls/c/count", OpenOptions{})
			for err == nil && written.Load() < 40 {
				least := written.Load()
				var view *View
				var isServed bool
				if view, isServed, err = client.read(context.Background(), handle, callRead); err != nil {
					break
				}
				if isServed {
					served.Add(1)
				}
				if found, _ := strconv.ParseInt(string(view.Content), 10, 64); found < least {
					err = fmt.Errorf("read %d after %d was set", found, least)
				}
			}
			if err != nil {
				test.Error(err)
			}
		}()
	}
	for number := int64(1); number <= 40; number++ {
		must(test, writer.Set(patient(test), file, []byte(strconv.FormatInt(number, 10))))
		written.Store(number)
		time.Sleep(10 * time.Millisecond)
	}
	group.Wait()
	if served.Load() == 0 {
		test.Error("no cache answered")
	}
}

func TestAClientThatIsClosedHoldsUpNobody(test *testing.T) {
	server, ctx := serve(test), patient(test)
	writer, reader := server.client("ann"), server.client("bob")
	file := open(test, writer, "/ls/c/left", writable)
	handle := open(test, reader, "/ls/c/left", OpenOptions{Mode: ModeReadWrite, Delay: time.Minute})
	read(test, reader, handle)
	must(test, reader.Acquire(ctx, handle, Exclusive))
	reader.Close()
	begun := time.Now()
	must(test, writer.Set(ctx, file, []byte("b")))
	must(test, writer.Acquire(ctx, file, Exclusive))
	if took := time.Since(begun); took > 2*time.Second {
		test.Errorf("it took %v", took)
	}
	_, err := reader.Open(ctx, "/ls/c/left", OpenOptions{})
	equal(test, err, ErrClosed)
}

func TestLocksAndSequencers(test *testing.T) {
	server, ctx := serve(test), patient(test)
	first, second := server.client("ann"), server.client("bob")
	file, other := open(test, first, "/ls/c/lock", writable), open(test, second, "/ls/c/lock", writable)
	must(test, first.Acquire(ctx, file, Exclusive))
	refused(test, second.TryAcquire(ctx, other, Exclusive), Held)
	sequencer, err := first.Sequencer(ctx, file)
	must(test, err)
	must(test, second.CheckSequencer(ctx, sequencer))
	gets := make(chan error, 1)
	go func() { gets <- second.Acquire(ctx, other, Exclusive) }()
	time.Sleep(200 * time.Millisecond)
	equal(test, len(gets), 0)
	must(test, first.Release(ctx, file))
	must(test, <-gets)
	refused(test, first.CheckSequencer(ctx, sequencer), SequencerStale)
	later, err := second.Sequencer(ctx, other)
	must(test, err)
	one, _ := FencingNumber(sequencer)
	two, _ := FencingNumber(later)
	equal(test, two.Cmp(one), 1)
	must(test, first.SetSequencer(ctx, file, later))
	must(test, first.Set(ctx, file, []byte("under a sequencer")))
	must(test, second.Release(ctx, other))
	refused(test, first.Set(ctx, file, []byte("late")), SequencerStale)
}

func TestAnAcquireThatIsGivenUpHoldsNothing(test *testing.T) {
	server, ctx := serve(test), patient(test)
	first, second, third := server.client("ann"), server.client("bob"), server.client("ann")
	file := open(test, first, "/ls/c/given-up", writable)
	must(test, first.Acquire(ctx, file, Exclusive))
	other := open(test, second, "/ls/c/given-up", writable)
	brief, cancel := context.WithTimeout(ctx, 200*time.Millisecond)
	defer cancel()
	equal(test, second.Acquire(brief, other, Exclusive), context.DeadlineExceeded)
	must(test, first.Release(ctx, file))
	must(test, third.Acquire(ctx, open(test, third, "/ls/c/given-up", writable), Exclusive))
	refused(test, second.TryAcquire(ctx, other, Exclusive), Held)
}

func TestEvents(test *testing.T) {
	server, ctx := serve(test), patient(test)
	client, other := server.client("ann"), server.client("bob")
	subscription := client.Subscribe()
	defer subscription.Close()
	open(test, client, "/ls/c/f", writable)
	handle := open(test, client, "/ls/c/f", OpenOptions{Events: EventsContents | EventsLock})
	file := open(test, other, "/ls/c/f", writable)
	must(test, other.Set(ctx, file, []byte("new")))
	event, err := subscription.Next(ctx)
	must(test, err)
	equal(test, []any{event.Kind, event.Opened, event.Generation}, []any{EventContents, handle.Opened(), 2})
	must(test, other.Acquire(ctx, file, Exclusive))
	event, err = subscription.Next(ctx)
	must(test, err)
	equal(test, event.Kind, EventLocked)
}

func TestAWatchShowsEachChange(test *testing.T) {
	server, ctx := serve(test), patient(test)
	watcher, writer := server.client("ann"), server.client("bob")
	shown := make(chan string, 16)
	ctx, cancel := context.WithCancel(ctx)
	ended := make(chan error, 1)
	go func() {
		ended <- watcher.Watch(ctx, "/ls/c/watched", func(view *View) error {
			if view == nil {
				shown <- "none"
			} else {
				shown <- string(view.Content)
			}
			return nil
		})
	}()
	equal(test, <-shown, "none")
	for _, life := range []string{"1", "2"} {
		file := open(test, writer, "/ls/c/watched", OpenOptions{Mode: ModeReadWrite, Make: []byte("made " + life)})
		equal(test, <-shown, "made "+life)
		must(test, writer.Set(patient(test), file, []byte("set "+life)))
		equal(test, <-shown, "set "+life)
		must(test, writer.Delete(patient(test), file))
		equal(test, <-shown, "none")
	}
	cancel()
	equal(test, <-ended, context.Canceled)
}

func TestAPrimaryAndTheNextOne(test *testing.T) {
	server, ctx := serve(test), patient(test)
	first, second, reader := server.client("ann"), server.client("bob"), server.client("ann")
	alpha, err := first.Elect(ctx, "/ls/c/primary", []byte("alpha"))
	must(test, err)
	next := make(chan *Lock)
	go func() {
		beta, err := second.Elect(ctx, "/ls/c/primary", []byte("beta"))
		if err != nil {
			test.Error(err)
		}
		next <- beta
	}()
	handle := open(test, reader, "/ls/c/primary", OpenOptions{})
	content, _ := read(test, reader, handle)
	equal(test, content, "alpha")
	must(test, alpha.Context().Err())
	first.Close()
	<-alpha.Context().Done()
	beta := <-next
	equal(test, beta.Number.Cmp(alpha.Number), 1)
	content, _ = read(test, reader, handle)
	equal(test, content, "beta")
	must(test, beta.Context().Err())
	must(test, beta.Unlock(ctx))
	<-beta.Context().Done()
}

func TestALostConnectionIsMadeAgain(test *testing.T) {
	client, ctx := serve(test).client("ann"), patient(test)
	file := open(test, client, "/ls/c/cut", writable)
	client.guard.Lock()
	client.connection.end()
	client.guard.Unlock()
	must(test, client.Set(ctx, file, []byte("again")))
	content, _ := read(test, client, file)
	equal(test, content, "again")
}

func TestSessionsHandlesAndLocksOutliveAServer(test *testing.T) {
	server, ctx := serve(test), patient(test)
	client, other := server.client("ann"), server.client("bob")
	subscription := client.Subscribe()
	defer subscription.Close()
	file := open(test, client, "/ls/c/f", writable)
	handle := open(test, other, "/ls/c/f", OpenOptions{})
	must(test, client.Acquire(ctx, file, Exclusive))
	read(test, other, handle)
	for _, how := range []syscall.Signal{syscall.SIGTERM, syscall.SIGKILL} {
		server.stop(how)
		server.start()
		content := fmt.Sprint("after ", how)
		err := client.Set(ctx, file, []byte(content))
		if IsRefused(err, Unknown) {
			err = client.Set(ctx, file, []byte(content))
		}
		must(test, err)
		found, _ := read(test, other, handle)
		equal(test, found, content)
		refused(test, other.TryAcquire(ctx, open(test, other, "/ls/c/f", OpenOptions{Mode: ModeWrite}), Exclusive), Held)
	}
	for at := 0; at < 2; at++ {
		event, err := subscription.Next(ctx)
		must(test, err)
		equal(test, event.Kind, EventFailOver)
	}
}

func TestASocketKnowsWhoComes(test *testing.T) {
	server, ctx := serve(test), patient(test)
	if _, err := Connect(ctx, server.socket, "somebody-else", Options{}); err == nil {
		test.Error("somebody else was taken")
	}
	_, err := Connect(ctx, server.address, "Nobody", Options{})
	refused(test, err, BadPrincipal)
}

// example runs one of the programs in examples, and gives the lines that it prints.
func (it *server) example(name string, words ...string) (*exec.Cmd, *bufio.Scanner) {
	program := filepath.Join(it.folder, name)
	if _, err := os.Stat(program); err != nil {
		must(it.test, exec.Command("go", "build", "-buildvcs=false", "-o", program, "./examples/"+name).Run())
	}
	child := exec.Command(program, append([]string{it.address}, words...)...)
	output, err := child.StdoutPipe()
	must(it.test, err)
	must(it.test, child.Start())
	it.test.Cleanup(func() {
		_ = child.Process.Kill()
		_ = child.Wait()
	})
	return child, bufio.NewScanner(output)
}

func TestTheExampleOfAnElection(test *testing.T) {
	server := serve(test)
	first, firstLines := server.example("elect", "/ls/c/leader", "alpha")
	equal(test, firstLines.Scan() && strings.HasPrefix(firstLines.Text(), "alpha is primary, by 0101"), true)
	_, secondLines := server.example("elect", "/ls/c/leader", "beta")
	must(test, first.Process.Signal(os.Interrupt))
	equal(test, firstLines.Scan() && firstLines.Text() == "alpha stands down", true)
	equal(test, secondLines.Scan() && strings.HasPrefix(secondLines.Text(), "beta is primary, by 0101"), true)
	client := server.client("ann")
	content, _ := read(test, client, open(test, client, "/ls/c/leader", OpenOptions{}))
	equal(test, content, "beta")
}

func TestTheExampleOfAConfiguration(test *testing.T) {
	server := serve(test)
	client := server.client("ann")
	_, lines := server.example("configuration", "/ls/c/shown")
	equal(test, lines.Scan() && lines.Text() == "no configuration", true)
	file := open(test, client, "/ls/c/shown", OpenOptions{Mode: ModeReadWrite, Make: []byte("one")})
	equal(test, lines.Scan() && lines.Text() == "configured: one", true)
	must(test, client.Set(patient(test), file, []byte("two")))
	equal(test, lines.Scan() && lines.Text() == "configured: two", true)
}
