package partition

import (
	"bufio"
	"bytes"
	"encoding/json"
	"fmt"
	"io"
	"math/rand"
	"os"
	"os/exec"
	"strings"
	"testing"
	"time"

	"gateway/engine"
	"gateway/rabbit/bus"
	"gateway/rabbit/ledger"
	"gateway/rabbit/line"
	"gateway/rabbit/logs"
	"gateway/rabbit/process"
)

var settings = bus.Settings{Partitions: 1}

// silent is a discarded log.
var silent = logs.New(io.Discard, "test")

// A log is a partition's two streams, in memory.
type log struct {
	lines   []bus.Message
	cut     int // how many of the first log messages are cut
	answers []bus.Message
}

func (l *log) Open() int { return 0 }

func (l *log) firstKept() (int64, error) { return int64(l.cut), nil }

func (l *log) Append(to bus.Route, headers bus.Headers, body []byte) error {
	l.answers = append(l.answers, bus.Message{At: to, Headers: headers, Body: body})
	return nil
}

// send appends a message of lines.
func (l *log) send(number int64, lines ...string) {
	l.put(ledger.Origin{Kind: ledger.Lines, Sender: "test", Number: number, Named: true}, lines...)
}

// put appends a message.
func (l *log) put(from ledger.Origin, lines ...string) {
	route := settings.Route(bus.RequestsExchange, bus.TopicModels, 0)
	l.lines = append(l.lines, bus.Message{Offset: int64(len(l.lines)), At: route, Headers: bus.OriginHeaders(from),
		Body: []byte(strings.Join(lines, "\n"))})
}

// A holder owns the partition, until it is dropped.
type holder struct {
	*Owner
	log  *log
	next int // the log's next message
}

// take takes the partition over, with the answers from this message of the answer stream on.
func take(t *testing.T, l *log, from int, options process.Options, deadline int) *holder {
	t.Helper()
	h := bus.NewHistory(from == 0, 0)
	for _, message := range l.answers[from:] {
		if err := h.Take(message); err != nil {
			t.Fatal(err)
		}
	}
	q := &queue{}
	gauges := NewGauges()
	o := &Owner{log: silent, gauges: gauges, queue: q, intake: newIntake(silent, gauges, q, h, settings, l.firstKept),
		work:   &work{log: silent, options: options, deadline: deadline, queue: q, ledger: h.Ledger, models: h.Ledger.Models.Clone(), begin: beginProcess, restarts: func() {}},
		output: &output{publisher: l, now: time.Now, route: settings.Route(bus.AnswersExchange, bus.TopicAnswers, 0), ledger: h.Ledger, last: h.Upto()}}
	next := int(h.Ledger.Place.Offset)
	if next < 0 {
		next = 0
	}
	return &holder{Owner: o, log: l, next: next}
}

// read lets the holder read this many more messages, and waits for the answers, or for that many.
func (h *holder) read(t *testing.T, messages int) {
	t.Helper()
	for ; messages > 0 && h.next < len(h.log.lines); messages-- {
		h.intake.take(h.log.lines[h.next])
		h.next++
	}
	ticker := time.NewTicker(10 * time.Millisecond)
	defer ticker.Stop()
	for begun := time.Now(); ; {
		if err := h.Step(); err != nil {
			t.Fatal(err)
		}
		if len(h.queue.entries) == 0 {
			return
		}
		var answers <-chan []process.Answer
		if h.work.process != nil {
			answers = h.work.process.Answers()
		}
		select {
		case batch, open := <-answers:
			if open {
				h.work.take(batch)
			} else {
				h.work.ended(h.work.process.Err())
			}
		case <-ticker.C:
			h.work.tick()
		}
		if time.Since(begun) > time.Minute {
			t.Fatal("no answers for a minute")
		}
	}
}

func enginePath(t *testing.T) string {
	t.Helper()
	path, err := engine.Path()
	if err != nil {
		t.Skip(err)
	}
	return path
}

const model = `{"model":{"inputs":["a"],"decisions":[{"name":"d","needs":["a"],"expr":"a * 3 + %d"}],` +
	`"services":[{"name":"s","outputs":["d"],"encapsulated":[],"inputDecisions":[],"inputData":["a"]}]}}`

func request(number int) string {
	service := "s"
	if number%7 == 0 {
		service = "none"
	}
	return fmt.Sprintf(`{"key":"key %d","service":"%s","inputs":{"a":%d},"id":%d}`, number%90, service, number, number)
}

// filled returns a log with messages of some lines each, with models between them and invalid lines.
func filled(messages, lines int) *log {
	l := &log{}
	number := 0
	for message := 0; message < messages; message++ {
		var texts []string
		for ; len(texts) < lines; number++ {
			switch {
			case number%50 == 5:
				texts = append(texts, fmt.Sprintf(model, number))
			case number%40 == 9:
				texts = append(texts, "no line")
			case number%60 == 30:
				texts = append(texts, `{"model":{}}`)
			default:
				texts = append(texts, request(number))
			}
		}
		l.send(int64(number-lines), texts...)
	}
	return l
}

// due returns what one desk serve answers to the whole log, each client's answers in order.
func due(t *testing.T, l *log, path string) map[string][]string {
	t.Helper()
	var input bytes.Buffer
	for _, message := range l.lines {
		for _, raw := range bytes.Split(message.Body, []byte("\n")) {
			if read, err := line.Read(raw); err == nil {
				input.Write(append(read.Engine, '\n'))
			}
		}
	}
	command := exec.Command(path, "serve", "--clients", "64", "--workers", "1")
	command.Stdin = &input
	output, err := command.Output()
	if err != nil {
		t.Fatal(err)
	}
	return byClient(t, bytes.Split(bytes.TrimSpace(output), []byte("\n")))
}

func byClient(t *testing.T, lines [][]byte) map[string][]string {
	t.Helper()
	found := make(map[string][]string)
	for _, text := range lines {
		var named struct{ Client string }
		if err := json.Unmarshal(text, &named); err != nil {
			t.Fatalf("%s: %v", text, err)
		}
		found[named.Client] = append(found[named.Client], string(text))
	}
	return found
}

// given returns the stream's answers as a chained reader sees them, in line order.
func given(t *testing.T, l *log) map[string][]string {
	t.Helper()
	var chain ledger.Chain
	chain.Reach(ledger.Start)
	var lines [][]byte
	for _, message := range l.answers {
		part, _, err := bus.ReadPart(message)
		if err != nil {
			t.Fatal(err)
		}
		if part.Snapshot {
			chain.Reach(part.Upto)
			continue
		}
		if !chain.Fits(part.After, part.Upto) {
			continue
		}
		for _, text := range bytes.Split(bytes.TrimSpace(message.Body), []byte("\n")) {
			var read struct {
				Offset, Place int64
				Answer        json.RawMessage
			}
			if err := json.Unmarshal(text, &read); err != nil {
				t.Fatalf("%s: %v", text, err)
			}
			if place := (ledger.Place{Offset: read.Offset, Index: read.Place}); chain.Upto.Before(place) {
				chain.Reach(place)
				lines = append(lines, read.Answer)
			}
		}
	}
	return byClient(t, lines)
}

func equal(t *testing.T, got, want map[string][]string) {
	t.Helper()
	for client, answers := range want {
		for at, text := range answers {
			if at >= len(got[client]) || got[client][at] != text {
				t.Fatalf("client %q, answer %d: %s is due, of %d there are %d", client, at, text, len(answers), len(got[client]))
			}
		}
	}
	for client, answers := range got {
		if len(answers) != len(want[client]) {
			t.Errorf("client %q has %d answers, not %d", client, len(answers), len(want[client]))
		}
	}
}

// A partition that is taken over again and again, at any message and with a snapshot anywhere, answers what one desk serve
// answers to the whole log, including tickets and line numbers.
func TestTakeoversAnswerAsOneProcess(t *testing.T) {
	path := enginePath(t)
	random := rand.New(rand.NewSource(1))
	options := process.Options{Path: path, Workers: 1, Longest: 1 << 20}
	for round := 0; round < 4; round++ {
		l := filled(30, 40)
		from := 0 // the message of the answer stream from which its readers begin
		for {
			h := take(t, l, from, options, 1000)
			h.read(t, 1+random.Intn(6))
			if random.Intn(2) == 0 {
				h.output.sinceMessages = snapshotMessages
				if err := h.Step(); err != nil {
					t.Fatal(err)
				}
				from = len(l.answers) - 1
			}
			h.work.end()
			if h.next == len(l.lines) {
				break
			}
		}
		equal(t, given(t, l), due(t, l, path))
	}
}

// Without answers for a long time a snapshot still comes, and the next one not at once.
func TestASnapshotComesWithTime(t *testing.T) {
	l := filled(1, 40)
	h := take(t, l, 0, process.Options{Path: enginePath(t), Workers: 1, Longest: 1 << 20}, 1000)
	h.read(t, 1)
	defer h.work.end()
	answered := len(l.answers)
	h.output.next = time.Now().Add(-time.Second)
	for range []int{1, 2} {
		h.output.tick(time.Now())
		if err := h.Step(); err != nil {
			t.Fatal(err)
		}
	}
	if len(l.answers) != answered+1 {
		t.Fatalf("%d messages more", len(l.answers)-answered)
	}
	if part, is, err := bus.ReadPart(l.answers[answered]); err != nil || !is || !part.Snapshot {
		t.Errorf("%+v, %v, %v", part, is, err)
	}
}

// What a stopped owner publishes after another has taken over is ignored by readers.
func TestASecondOwnerThatGoesOn(t *testing.T) {
	path := enginePath(t)
	options := process.Options{Path: path, Workers: 2, Longest: 1 << 20}
	l := filled(12, 40)
	first := take(t, l, 0, options, 1000)
	first.read(t, 3)
	second := take(t, l, 0, options, 1000)
	second.read(t, 4)
	first.read(t, 2) // it comes late, with answers that are there
	second.read(t, 2)
	third := take(t, l, 0, options, 1000)
	third.read(t, 100)
	first.read(t, 100)
	for _, h := range []*holder{first, second, third} {
		h.work.end()
	}
	equal(t, given(t, l), due(t, l, path))
}

// brokenVariable makes this program an engine that dies, hangs or writes nonsense at some lines, and runs the named engine.
const brokenVariable = "DESK_TEST_BROKEN"

// olderVariable makes it an engine that knows no model.
const olderVariable = "DESK_TEST_OLDER"

func TestMain(m *testing.M) {
	if path := os.Getenv(brokenVariable); path != "" {
		runBroken(path)
	}
	os.Exit(m.Run())
}

func runBroken(path string) {
	command := exec.Command(path, os.Args[1:]...)
	command.Stdout = os.Stdout
	input, err := command.StdinPipe()
	if err == nil {
		err = command.Start()
	}
	if err != nil {
		os.Exit(2)
	}
	for lines := bufio.NewScanner(os.Stdin); lines.Scan(); {
		if os.Getenv(olderVariable) != "" && strings.HasPrefix(lines.Text(), `{"model":`) {
			fmt.Fprintln(input, `{"model":{}}`)
			continue
		}
		if strings.Contains(lines.Text(), "poison dies") {
			os.Exit(1)
		}
		if strings.Contains(lines.Text(), "poison stands") {
			time.Sleep(time.Hour)
		}
		if strings.Contains(lines.Text(), "poison confuses") {
			fmt.Println("no answer")
			continue
		}
		fmt.Fprintln(input, lines.Text())
	}
	os.Exit(0)
}

// A line at which the engine dies, hangs or writes nonsense is refused, and the lines around it are answered.
func TestPoison(t *testing.T) {
	path := enginePath(t)
	l := filled(4, 40)
	poison := `{"key":"key %d","service":"s","inputs":{"a":"poison %s"},"id":0}`
	l.send(160, fmt.Sprintf(poison, 3, "dies"), request(3), fmt.Sprintf(poison, 4, "stands"), request(4))
	l.send(164, fmt.Sprintf(poison, 5, "confuses"), request(5))
	l.send(166, request(3), request(4), request(5))
	want := due(t, l, path)
	t.Setenv(brokenVariable, path)
	h := take(t, l, 0, process.Options{Path: os.Args[0], Workers: 1, Longest: 1 << 20}, 100)
	h.read(t, 100)
	h.work.end()
	got := given(t, l)
	refused := 0
	for client, answers := range got {
		for at, text := range answers {
			if strings.HasSuffix(text, `"refused":"died"}`) || strings.HasSuffix(text, `"refused":"deadline"}`) {
				refused++
				continue
			}
			if unticketed(text) != unticketed(want[client][at]) {
				t.Errorf("%s in place of %s", text, want[client][at])
			}
		}
	}
	if refused != 3 {
		t.Errorf("%d lines are refused", refused)
	}
}

// unticketed returns an answer without its ticket: a refused line takes none.
func unticketed(text string) string {
	if at := strings.LastIndex(text, `,"ticket":`); at >= 0 {
		return text[:at]
	}
	return text
}

// An answer that is too long is refused with its ticket.
func TestALongAnswer(t *testing.T) {
	path := enginePath(t)
	l := &log{}
	long := strings.ReplaceAll(fmt.Sprintf(model, 1), "a * 3 + 1", "a")
	l.send(0, long, request(1), `{"key":"key 1","service":"s","inputs":{"a":"`+strings.Repeat("x", 5000)+`"},"id":2}`, request(1))
	h := take(t, l, 0, process.Options{Path: path, Workers: 1, Longest: 1024}, 1000)
	h.read(t, 1)
	h.work.end()
	body := ""
	for _, message := range l.answers {
		if part, _, err := bus.ReadPart(message); err == nil && !part.Snapshot {
			body += string(message.Body)
		}
	}
	lines := strings.Split(strings.TrimSpace(body), "\n")
	if len(lines) != 4 || !strings.HasSuffix(lines[2], `"line":3,"refused":"answer","ticket":1}}`) ||
		!strings.HasSuffix(lines[3], `"result":1,"ticket":2}}`) {
		t.Errorf("%s", body)
	}
}
