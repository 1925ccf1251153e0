package tillermoss

import (
	"bytes"
	"encoding/hex"
	"fmt"
	"os"
	"strconv"
	"strings"
	"testing"
)

// The bytes that all clients share, hosts/conformance/vectors.txt: what is sent is these, and what comes is read so.

type vector struct {
	words string
	block []byte
}

func vectors(test *testing.T, kind string) []vector {
	test.Helper()
	text, err := os.ReadFile("../../conformance/vectors.txt")
	must(test, err)
	var found []vector
	for _, line := range strings.Split(string(text), "\n") {
		parts := strings.SplitN(line, "|", 3)
		if len(parts) == 3 && strings.TrimSpace(parts[0]) == kind {
			block, err := hex.DecodeString(strings.ReplaceAll(parts[2], " ", ""))
			must(test, err)
			found = append(found, vector{strings.TrimSpace(parts[1]), block})
		}
	}
	if len(found) < 2 {
		test.Fatalf("only %d vectors of %s", len(found), kind)
	}
	return found
}

// words takes words from the left.
type words struct{ left []string }

func (it *words) next(names ...string) string {
	for _, name := range names {
		if it.left[0] != name {
			panic("found " + it.left[0] + " for " + name)
		}
		it.left = it.left[1:]
	}
	word := it.left[0]
	it.left = it.left[1:]
	return word
}

func (it *words) number(names ...string) uint64 {
	number, err := strconv.ParseUint(it.next(names...), 10, 64)
	if err != nil {
		panic(err)
	}
	return number
}

// content is nil for none.
func (it *words) content(names ...string) []byte {
	word := it.next(names...)
	if word == "none" {
		return nil
	}
	content, err := hex.DecodeString(strings.TrimPrefix(word, "-"))
	if err != nil {
		panic(err)
	}
	return content
}

func (it *words) creation() *creation {
	must := it.next("create")
	if must == "none" {
		return nil
	}
	made := &creation{must: must == "must"}
	if made.isDirectory = it.next() == "directory"; !made.isDirectory {
		made.content = it.content()
	}
	made.isEphemeral = it.next() == "ephemeral"
	if first := it.next("acls"); first != "none" {
		made.acls = &[3]string{first, it.next(), it.next()}
	}
	return made
}

func (it *words) body() []byte {
	alone := map[string]byte{"Close": callClose, "Read": callRead, "Stat": callStat, "List": callList, "Delete": callDelete,
		"Release": callRelease, "GetSequencer": callGetSequencer, "SetSequencer": callSetSequencer}
	locks := map[string]byte{"Acquire": callAcquire, "TryAcquire": callTryAcquire}
	switch kind := it.next(); kind {
	case "Open":
		name, mode, made := it.next(), Mode(it.number("mode")), it.creation()
		return opening(name, mode, made, it.number("lock-delay"), Events(it.number("events")))
	case "Leave":
		return []byte{callLeave}
	case "CheckSequencer":
		return sized([]byte{callCheckSequencer}, it.content())
	case "Set":
		block := sized(onHandle(callSet, it.content()), it.content("content"))
		if it.left[1] == "none" {
			it.next("generation")
			return generationOrNone(block, nil)
		}
		generation := it.number("generation")
		return generationOrNone(block, &generation)
	case "Acquire", "TryAcquire":
		block := onHandle(locks[kind], it.content())
		return append(block, byte(strings.Index("xs", it.next())))
	default:
		return onHandle(alone[kind], it.content())
	}
}

func (it *words) request() []byte {
	kind, client := it.next(), it.number("client")
	if kind == "Start" {
		return start(client, it.number("number"), it.next("principal"))
	}
	epoch, number := it.number("epoch"), it.number("number")
	if kind == "Beat" {
		return beat(client, epoch, number, it.number("invalidations"), it.number("events"))
	}
	body := it.body()
	return call(client, epoch, number, body, it.content("sequencer"))
}

func TestRequestsAreTheVectors(test *testing.T) {
	for _, vector := range vectors(test, "request") {
		it := &words{strings.Fields(vector.words)}
		if block := it.request(); !bytes.Equal(block, vector.block) {
			test.Errorf("%s\n found %x\nwanted %x", vector.words, block, vector.block)
		}
	}
}

func TestGreetingsAreTheVectors(test *testing.T) {
	for _, vector := range vectors(test, "greeting") {
		it := &words{strings.Fields(vector.words)}
		principal := it.next("principal")
		block := hello(principal)
		if len(it.left) > 0 {
			block = helloAgain(principal, it.number("client"), it.number("token"))
		}
		equal(test, hex.EncodeToString(block), hex.EncodeToString(vector.block))
	}
}

func TestWelcomesAreTheVectors(test *testing.T) {
	for _, vector := range vectors(test, "welcome") {
		found, err := readWelcome(vector.block)
		must(test, err)
		said := fmt.Sprintf("client %d token %d", found.client, found.token)
		if !found.isBound {
			said = fmt.Sprintf("reason %d", found.reason)
		}
		if found.reason == reasonNotMaster {
			said += " master " + orDash(found.master)
		}
		equal(test, said, vector.words)
	}
}

func orDash(text string) string {
	if text == "" {
		return "-"
	}
	return text
}

func kindAndLife(isDirectory, isEphemeral bool) (string, string) {
	kind, life := "file", "permanent"
	if isDirectory {
		kind = "dir"
	}
	if isEphemeral {
		life = "ephemeral"
	}
	return kind, life
}

func inWords(result any) string {
	switch found := result.(type) {
	case *opened:
		_, life := kindAndLife(false, found.isEphemeral)
		return fmt.Sprintf("opened %s instance %d %s", orDash(hex.EncodeToString(found.handle)), found.instance, life)
	case *View:
		kind, life := kindAndLife(found.IsDirectory, found.IsEphemeral)
		return fmt.Sprintf("view %s %d %d %d %s %s content %s children %s", kind, found.Instance, found.ContentGeneration,
			found.ACLGeneration, strings.Join(found.ACLs[:], " "), life, orDash(hex.EncodeToString(found.Content)), strings.Join(found.Children, " "))
	case *Stat:
		kind, life := kindAndLife(found.IsDirectory, found.IsEphemeral)
		return fmt.Sprintf("stat %s %d %d %d %d %s %s length %d", kind, found.Instance, found.ContentGeneration, found.ACLGeneration,
			found.LockGeneration, strings.Join(found.ACLs[:], " "), life, found.Length)
	case []byte:
		return "sequencer " + orDash(hex.EncodeToString(found))
	case *Refusal:
		return fmt.Sprintf("refused %d %s", found.Number, found.Error())
	}
	return "done"
}

func messageInWords(found *message) string {
	head := fmt.Sprintf("client %d epoch %d number %d", found.client, found.epoch, found.number)
	switch found.kind {
	case kindNotice:
		return fmt.Sprintf("Notice number %d text %s", found.number, orDash(found.text))
	case kindStarted:
		return fmt.Sprintf("Started %s span %d", head, found.span)
	case kindRefused:
		return "Refused " + head + strings.TrimPrefix(inWords(found.result), "refused")
	case kindReply:
		stamp := "none"
		if found.hasStamp {
			stamp = strconv.FormatUint(found.stamp, 10)
		}
		return fmt.Sprintf("Reply %s stamp %s %s", head, stamp, inWords(found.result))
	}
	said := fmt.Sprintf("Alive %s span %d invalidations", head, found.span)
	for _, told := range found.invalidations {
		said += fmt.Sprintf(" %d %s", told.number, told.name)
	}
	said += " events"
	for _, told := range found.events {
		said += fmt.Sprintf(" %d %s", told.number, told.event.Kind)
		for _, number := range []uint64{told.event.Opened, told.event.Instance, told.event.Generation} {
			if number > 0 {
				said += fmt.Sprintf(" %d", number)
			}
		}
		said += strings.TrimRight(" "+told.event.Name, " ")
	}
	return said
}

func TestMessagesAreTheVectors(test *testing.T) {
	for _, vector := range vectors(test, "message") {
		found, err := readMessage(vector.block)
		must(test, err)
		equal(test, strings.TrimRight(messageInWords(found), " "), vector.words)
		for length := range vector.block {
			// (the text of a notice ends with its block)
			if found.kind == kindNotice && length >= 10 {
				break
			}
			if _, err := readMessage(vector.block[:length]); err != ErrMalformed {
				test.Errorf("%d bytes of %s: %v", length, vector.words, err)
			}
		}
	}
}

func TestWhatIsNoMessage(test *testing.T) {
	for _, vector := range vectors(test, "wrong") {
		if _, err := readMessage(vector.block); err != ErrMalformed {
			test.Errorf("%s: %v", vector.words, err)
		}
	}
}

func TestTheFencingNumberOfASequencer(test *testing.T) {
	sequencer, _ := hex.DecodeString("01010000000000000004000000000000000100072f6c732f632f66")
	number, err := FencingNumber(sequencer)
	must(test, err)
	equal(test, number, "73786976294838206465")
	for _, wrong := range [][]byte{nil, sequencer[:26], append(sequencer[:27:27], 'f'), append([]byte{2}, sequencer[1:]...)} {
		if _, err := FencingNumber(wrong); err != ErrMalformed {
			test.Errorf("%x: %v", wrong, err)
		}
	}
}
