package receiver

import (
	"bytes"
	"errors"
	"fmt"
	"os"
	"path/filepath"
	"strings"
	"testing"
	"time"

	"gateway/rabbit/answer"
	"gateway/rabbit/bus"
	"gateway/rabbit/ledger"
	"gateway/rabbit/logs"
)

// A file is a receiver that writes to a file and keeps its place, and its log.
type file struct {
	*Receiver
	path   string
	logged *bytes.Buffer
}

// opened returns a receiver that was started with these files.
func opened(t *testing.T, folder string) file {
	t.Helper()
	path := filepath.Join(folder, "answers")
	output, err := os.OpenFile(path, os.O_RDWR|os.O_CREATE, 0o600)
	if err != nil {
		t.Fatal(err)
	}
	t.Cleanup(func() { output.Close() })
	logged := &bytes.Buffer{}
	r, err := New(Options{Settings: bus.Settings{Partitions: 1}, From: bus.From{},
		Place: filepath.Join(folder, "place"), Output: output, File: true, Log: logs.New(logged, "test")})
	if err != nil {
		t.Fatal(err)
	}
	logged.Reset() // it has logged where it begins
	return file{Receiver: r, path: path, logged: logged}
}

// messageOf returns a message of the answer stream.
func messageOf(offset int64, part bus.Part, body []byte) bus.Message {
	return bus.Message{Offset: offset, At: bus.Route{Exchange: bus.AnswersExchange, Key: "answers.0.of.1"},
		Headers: bus.PartHeaders(part), Body: body}
}

// answers gives the receiver the answers to count lines after this one, each line in its own message.
func (f file) answers(t *testing.T, stream, last, count int64) {
	t.Helper()
	part := bus.Part{After: ledger.Place{Offset: last}, Upto: ledger.Place{Offset: last + count}}
	if last < 0 {
		part.After = ledger.Start
	}
	var body []byte
	for line := last + 1; line <= last+count; line++ {
		body = answer.Append(body, ledger.Place{Offset: line}, []byte(`"k"`), []byte(fmt.Sprint(line)), []byte(`{"ticket":0}`))
	}
	if err := f.Add(first, messageOf(stream, part, body)); err != nil {
		t.Fatal(err)
	}
}

// written returns the numbers of the lines whose answers are in the file.
func (f file) written(t *testing.T) string {
	t.Helper()
	text, err := os.ReadFile(f.path)
	if err != nil {
		t.Fatal(err)
	}
	var numbers []string
	for _, line := range strings.Split(strings.TrimSpace(string(text)), "\n") {
		if number := strings.TrimPrefix(line, `{"partition":0,"offset":`); number != line {
			line, _, _ = strings.Cut(number, ",")
		}
		numbers = append(numbers, line)
	}
	return strings.Join(numbers, " ")
}

func (f file) saved(t *testing.T) {
	t.Helper()
	if err := f.Save(); err != nil {
		t.Fatal(err)
	}
}

// first is the partition that the tests receive from.
var first = bus.Partition{Of: bus.Settings{Partitions: 1}}

// Answers that are published twice, after a gap, or again by a second owner are written once.
func TestEachAnswerIsWrittenOnce(t *testing.T) {
	f := opened(t, t.TempDir())
	f.answers(t, 0, -1, 3)                                       // 0 to 2
	f.answers(t, 1, -1, 3)                                       // the same again
	f.answers(t, 2, 5, 1)                                        // after a gap
	f.answers(t, 3, 0, 4)                                        // 1 to 4
	if err := f.Add(first, bus.Message{Offset: 4}); err != nil { // a mark
		t.Fatal(err)
	}
	f.answers(t, 5, 4, 2) // 5 and 6
	f.saved(t)
	if got := f.written(t); got != "0 1 2 3 4 5 6" || f.logged.Len() > 0 {
		t.Errorf("%s; %s", got, f.logged)
	}
}

// A receiver that is killed and restarted writes nothing twice and misses nothing.
func TestAPlaceIsGoneBackTo(t *testing.T) {
	folder := t.TempDir()
	f := opened(t, folder)
	f.answers(t, 0, -1, 3)
	f.saved(t)
	f.answers(t, 1, 2, 2)
	if err := f.output.Flush(); err != nil { // and the place is not saved
		t.Fatal(err)
	}
	again := opened(t, folder)
	if from := again.find(first).stream; from != 0 {
		t.Errorf("it goes on at %v", from)
	}
	again.answers(t, 0, -1, 3)
	again.answers(t, 1, 2, 2)
	again.answers(t, 2, 4, 1)
	again.saved(t)
	if got := again.written(t); got != "0 1 2 3 4 5" {
		t.Error(got)
	}
}

// An output without a place is kept as it is.
func TestNothingIsOverwritten(t *testing.T) {
	folder := t.TempDir()
	f := opened(t, folder)
	f.answers(t, 0, -1, 3)
	f.saved(t)
	before := f.written(t)
	options := f.options
	options.Place = filepath.Join(folder, "mistyped")
	if _, err := New(options); !errors.Is(err, ErrNotEmpty) {
		t.Errorf("with another place: %v", err)
	}
	options.Place = ""
	if _, err := New(options); !errors.Is(err, ErrNotEmpty) {
		t.Errorf("with no place: %v", err)
	}
	if after := f.written(t); after != before {
		t.Errorf("%s is left of %s", after, before)
	}
	other := strings.Repeat("x", 1000)
	if err := os.WriteFile(f.path, []byte(other), 0o600); err != nil {
		t.Fatal(err)
	}
	if _, err := New(f.options); err == nil {
		t.Error("another file is taken")
	}
	if text, err := os.ReadFile(f.path); err != nil || string(text) != other {
		t.Errorf("another file is changed: %v", err)
	}
}

// A receiver that is killed before its first answer continues with its place.
func TestAPlaceIsThereAtOnce(t *testing.T) {
	folder := t.TempDir()
	f := opened(t, folder)
	f.answers(t, 0, -1, 3)
	if err := f.output.Flush(); err != nil { // and the place is not saved
		t.Fatal(err)
	}
	again := opened(t, folder)
	again.answers(t, 0, -1, 3)
	again.saved(t)
	if got := again.written(t); got != "0 1 2" {
		t.Error(got)
	}
}

// What retention cut before it was received is reported, and the receiver continues.
func TestACutIsReported(t *testing.T) {
	f := opened(t, t.TempDir())
	f.answers(t, 0, -1, 3)
	f.answers(t, 9, 20, 1)
	f.saved(t)
	lost := `{"partition":0,"lost":{"from":3,"to":20,"answers":true}}`
	if got := f.written(t); got != "0 1 2 "+lost+" 21" || !strings.Contains(f.logged.String(), "after line 2.0 and up to line 20.0") {
		t.Errorf("%s; %s", got, f.logged)
	}
	if f.gaps != 1 {
		t.Errorf("%d gaps", f.gaps)
	}
}

// Lost requests are a line of the answer stream, which is written once.
func TestLostRequestsAreWritten(t *testing.T) {
	f := opened(t, t.TempDir())
	f.answers(t, 0, -1, 3)
	gap := ledger.Gap{From: 3, To: 8}
	part := bus.Part{After: ledger.Place{Offset: 2}, Upto: gap.Place()}
	for stream := int64(1); stream <= 2; stream++ {
		if err := f.Add(first, messageOf(stream, part, answer.AppendLost(nil, gap))); err != nil {
			t.Fatal(err)
		}
	}
	f.answers(t, 3, 8, 1)
	f.saved(t)
	if got := f.written(t); got != `0 1 2 {"partition":0,"lost":{"from":3,"to":8}} 9` || f.gaps != 1 {
		t.Errorf("%s, %d gaps", got, f.gaps)
	}
}

// A cut is noticed if a mark comes first after it, and after a restart of the receiver.
func TestACutBeforeAMarkIsReported(t *testing.T) {
	folder := t.TempDir()
	f := opened(t, folder)
	f.answers(t, 0, -1, 3)
	if err := f.Add(first, bus.Message{Offset: 9}); err != nil {
		t.Fatal(err)
	}
	f.saved(t)
	again := opened(t, folder)
	again.answers(t, 10, 20, 1)
	again.saved(t)
	if got := again.written(t); !strings.HasPrefix(got, "0 1 2 ") || !strings.HasSuffix(got, " 21") || again.gaps != 1 {
		t.Errorf("%s; %s", got, again.logged)
	}
}

// Offsets that the broker uses itself are no cut, and answers repeated after them are not written.
func TestMissingOffsetsAreNoCut(t *testing.T) {
	f := opened(t, t.TempDir())
	f.answers(t, 0, -1, 3)
	f.answers(t, 2, 2, 1)
	f.answers(t, 4, 0, 3)
	f.answers(t, 6, 3, 1)
	f.saved(t)
	if got := f.written(t); got != "0 1 2 3 4" || f.logged.Len() > 0 {
		t.Errorf("%s; %s", got, f.logged)
	}
}

// A receiver logs where it begins, and that it continues at a place.
func TestWhereItBeginsIsLogged(t *testing.T) {
	folder := t.TempDir()
	for from, due := range map[bus.From]string{{}: "begins at the first message that is left", {Place: bus.Next}: "begins at what comes from now on",
		bus.FromOffset(1000): "begins at offset 1000, or the first one after it that is left"} {
		var logged bytes.Buffer
		if _, err := New(Options{Settings: bus.Settings{Partitions: 1}, From: from, Log: logs.New(&logged, "test")}); err != nil || !strings.HasSuffix(logged.String(), due+"\n") {
			t.Errorf("%v, %s", err, &logged)
		}
	}
	opened(t, folder).saved(t)
	options := opened(t, folder).options
	var logged bytes.Buffer
	options.Log = logs.New(&logged, "test")
	if _, err := New(options); err != nil || !strings.Contains(logged.String(), "goes on at the place in "+options.Place) {
		t.Errorf("%v, %s", err, &logged)
	}
}

func TestAPlaceOfOtherPartitions(t *testing.T) {
	path := filepath.Join(t.TempDir(), "place")
	if err := (&places{Partitions: []place{{Stream: 4}}}).write(path); err != nil {
		t.Fatal(err)
	}
	if p, err := readPlaces(path, 1); err != nil || p.Partitions[0].Stream != 4 {
		t.Errorf("%+v, %v", p, err)
	}
	if _, err := readPlaces(path, 2); err == nil {
		t.Error("the place of another number of partitions is read")
	}
}

// Time without an answer counts once each partition was reached, or failed.
func TestIdleTimeBeginsWithThePartitions(t *testing.T) {
	f := opened(t, t.TempDir())
	f.options.Idle = time.Nanosecond
	f.epochs = nil
	f.add(bus.Settings{Partitions: 2})
	readers := f.Readers()
	readers[0].failed(nil)
	f.moved = time.Time{}
	if f.idled() {
		t.Error("it has ended before a partition was reached")
	}
	readers[1].failed(errors.New("it can't be reached"))
	f.moved = time.Time{}
	if !f.idled() || readers[0].fault() != nil || readers[1].fault() == nil {
		t.Error("it goes on")
	}
	if is, said := f.options.Gauges.Ready(); is || said != "partition 1 can't be reached: it can't be reached" {
		t.Error(said)
	}
}
