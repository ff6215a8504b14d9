package command

import (
	"bytes"
	"encoding/json"
	"fmt"
	"io"
	"log"
	"strings"
	"sync"
	"time"

	"gateway/service"
)

// Forms of the log.
const (
	logText = "text"
	logJSON = "json"
)

// setLog sets the form of a service's log.
func setLog(options *service.Options, to io.Writer, form string) error {
	switch form {
	case logText:
		options.Log = log.New(to, "desk http: ", log.LstdFlags|log.LUTC|log.Lmsgprefix).Printf
	case logJSON:
		l := &lineLog{to: to}
		options.Log, options.Access = l.say, l.write
	default:
		return wrong("--log is text or json, not %q", form)
	}
	return nil
}

// A lineLog writes whole lines of JSON.
type lineLog struct {
	mu sync.Mutex
	to io.Writer
}

func (l *lineLog) write(line []byte) {
	l.mu.Lock()
	defer l.mu.Unlock()
	// A log without a reader ends no service.
	_, _ = l.to.Write(line)
}

// say writes a sentence.
func (l *lineLog) say(form string, words ...any) {
	var line bytes.Buffer
	encoder := json.NewEncoder(&line)
	encoder.SetEscapeHTML(false)
	err := encoder.Encode(struct {
		Time    string `json:"time"`
		Level   string `json:"level"`
		Event   string `json:"event"`
		Message string `json:"message"`
	}{time.Now().UTC().Format("2006-01-02T15:04:05.000000Z"), "info", "log", strings.TrimRight(fmt.Sprintf(form, words...), "\n")})
	if err == nil {
		l.write(line.Bytes())
	}
}
