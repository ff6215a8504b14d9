package service

import (
	"encoding/json"
	"net/http"
	"strconv"
)

// A problemKind is a kind of error, with the content of its type's page.
type problemKind struct {
	word   string
	status int
	title  string
	page   string
}

// Kinds of problems. Each has a page under /problems/.
var (
	problemSyntax = &problemKind{"syntax", http.StatusBadRequest, "The body is no JSON",
		"The body is no JSON text in UTF-8, is nested too deep, has half of a surrogate pair, or a number past the range " +
			"of floats. line and column say where reading stops; both begin at 1, and a column is a byte."}
	problemHeader = &problemKind{"header", http.StatusBadRequest, "A header or a parameter is not taken",
		"X-Client is a text of 1 to 64 bytes in UTF-8. A query has words that its path takes, each once."}
	problemTwice = &problemKind{"twice", http.StatusBadRequest, "One input is given in two ways",
		"An input is given by its name in the file or by the model's word for it, and not by both. pointer says where the second one is."}
	problemUnknown = &problemKind{"unknown", http.StatusUnprocessableEntity, "An input is not known",
		"The model has the types of its inputs, and none has this name. pointer says which. desk http --lenient ignores such inputs."}
	problemToken = &problemKind{"token", http.StatusUnauthorized, "A token is asked for",
		"Send Authorization: Bearer TOKEN with a token of the service's file."}
	problemRight = &problemKind{"right", http.StatusForbidden, "The caller may not do this",
		"A model is put with a token that has the right put. Without tokens it is put from the machine itself alone, " +
			"and not through a proxy."}
	problemHost = &problemKind{"host", http.StatusMisdirectedRequest, "The service is not called so",
		"Without tokens a service that listens on loopback is called by a loopback address or localhost: another name may be one that " +
			"a page of another site made to lead here. With --open it takes any."}
	problemSite = &problemKind{"site", http.StatusForbidden, "A page of another site sent this",
		"A browser sends what a page asks for. Pages of other sites may ask for nothing here but to read what needs no token."}
	problemPath = &problemKind{"path", http.StatusNotFound, "There is nothing here",
		"The paths are /v1/services/SERVICE, /v1/model, /openapi.json, /healthz, /readyz and /metrics; / is a page for people."}
	problemService = &problemKind{"service", http.StatusNotFound, "The model has no such service",
		"services lists those that there are."}
	problemUnkept = &problemKind{"unkept", http.StatusNotFound, "The model is not kept",
		"Of the models that were checked and not put, the last eight are kept. Have it checked again."}
	problemLeft = &problemKind{"left", http.StatusBadRequest, "The caller closed its side of the connection",
		"An answer is given on a connection that the caller keeps open in both directions."}
	problemMethod = &problemKind{"method", http.StatusMethodNotAllowed, "The path does not take this method",
		"The header Allow lists those that it takes."}
	problemLong = &problemKind{"long", http.StatusRequestEntityTooLarge, "The request is too long",
		"A body has at most 16 MiB, a list at most 10,000 requests, and a single request at most 1,048,576 bytes as the " +
			"line that the engine reads, some of which are the line's own."}
	problemShape = &problemKind{"shape", http.StatusUnprocessableEntity, "The inputs are no object",
		"The inputs of a request are a JSON object; a list of such objects asks for each."}
	problemValue = &problemKind{"value", http.StatusUnprocessableEntity, "A value is not taken",
		"pointer says which. A number is whole, written without a point and an exponent, from -9223372036854775807 to " +
			"9223372036854775807; a value has at most 10,000 parts and is at most 100 deep. Where the model came from a " +
			".dmn file, an input is of its type; where its type has multipleOf it may have as many decimals, and is never rounded. Where the " +
			"model declares domains, inputs and their components lie in them."}
	problemLimit = &problemKind{"limit", http.StatusUnprocessableEntity, "A value breaks a limit on the way",
		"The model's answer: some value on the way would be a number past 9223372036854775807, or have over 10,000 parts, " +
			"or be over 100 deep."}
	problemModel = &problemKind{"model", http.StatusUnprocessableEntity, "The model has a fault",
		"errors has each place, as desk check --json tells it. The model that was in force stays."}
	problemMatch = &problemKind{"match", http.StatusPreconditionFailed, "Another model is in force",
		"If-Match names another model than the one in force."}
	problemVersion = &problemKind{"version", http.StatusConflict, "There is such a release",
		"Releases are not changed. Give another version in the query, or in the body's release."}
	problemBusy = &problemKind{"busy", http.StatusTooManyRequests, "The client has too many requests out",
		"Wait for answers, or as long as Retry-After says."}
	problemFull = &problemKind{"full", http.StatusServiceUnavailable, "The service has too many requests",
		"Try again after as many seconds as Retry-After says."}
	problemStopping = &problemKind{"stopping", http.StatusServiceUnavailable, "The service is about to end",
		"Try again, at another instance or after as many seconds as Retry-After says."}
	problemJournal = &problemKind{"journal", http.StatusServiceUnavailable, "The journal cannot be written",
		"No answer is given that is not in the journal. The operator sees why in the service's log."}
	problemState = &problemKind{"state", http.StatusServiceUnavailable, "The model cannot be kept",
		"The model could not be written to the state file, so it was not put in force."}
	problemWaited = &problemKind{"waited", http.StatusServiceUnavailable, "No engine came to the request",
		"It waited for half a minute. Try again after as many seconds as Retry-After says."}
	problemLate = &problemKind{"late", http.StatusGatewayTimeout, "The request takes longer than the deadline",
		"It was tried twice. It will take as long again. For a minute it is refused at once."}
	problemDied = &problemKind{"died", http.StatusInternalServerError, "An engine ended at the request",
		"It was tried twice. It may need more memory than --memory allows. For a minute it is refused at once."}
	problemHuge = &problemKind{"huge", http.StatusInternalServerError, "The result is too long",
		"A result has at most 16 MiB, and those of a list have 64 MiB in all."}
	problemInside = &problemKind{"inside", http.StatusInternalServerError, "The service has a fault",
		"The operator sees more in the service's log."}
)

// problemKinds has each kind by its word.
var problemKinds = func() map[string]*problemKind {
	kinds := map[string]*problemKind{}
	for _, kind := range []*problemKind{
		problemSyntax, problemHeader, problemTwice, problemUnknown, problemLeft, problemToken, problemRight, problemHost, problemSite, problemPath, problemService, problemUnkept, problemMethod,
		problemLong, problemShape, problemValue, problemLimit, problemModel, problemMatch, problemVersion, problemBusy, problemFull,
		problemUnsent, problemOver, problemStopping, problemJournal, problemState, problemWaited, problemLate, problemDied, problemHuge, problemInside,
	} {
		kinds[kind.word] = kind
	}
	return kinds
}()

// A problem is an error as callers see it (RFC 9457).
type problem struct {
	kind    *problemKind
	Type    string `json:"type"`
	Title   string `json:"title"`
	Status  int    `json:"status"`
	Detail  string `json:"detail,omitempty"`
	Request string `json:"request,omitempty"`
	// Pointer is the JSON Pointer of the refused value within the inputs.
	Pointer *string `json:"pointer,omitempty"`
	// Line and Column are where reading stopped.
	Line   int `json:"line,omitempty"`
	Column int `json:"column,omitempty"`
	// Services are the existing ones.
	Services []string `json:"services,omitempty"`
	// Fault is the first fault of a model, and Errors has all places.
	Fault  string            `json:"fault,omitempty"`
	Errors []json.RawMessage `json:"errors,omitempty"`
	// Decisions explain the problem if asked for. Explained is "long" if they are too long.
	Decisions json.RawMessage `json:"decisions,omitempty"`
	Explained string          `json:"explained,omitempty"`

	allow string
}

func (k *problemKind) with(detail string) *problem {
	return &problem{kind: k, Type: "/problems/" + k.word, Title: k.title, Status: k.status, Detail: detail}
}

// at returns a problem of one value.
func (k *problemKind) at(pointer, detail string) *problem {
	p := k.with(detail)
	p.Pointer = &pointer
	return p
}

// text returns the problem as JSON.
func (p *problem) text() []byte {
	text, err := plainJSON(p)
	if err != nil {
		return []byte(`{"type":"/problems/inside","status":500}`)
	}
	return text
}

// retrySeconds returns the Retry-After of problems that may pass, and 0 for others.
func (k *problemKind) retrySeconds() int {
	switch k.status {
	case http.StatusTooManyRequests, http.StatusServiceUnavailable:
		return 1
	}
	return 0
}

func (p *problem) write(w http.ResponseWriter, id string) {
	p.Request = id
	header := w.Header()
	header["Content-Type"] = contentProblem
	if seconds := p.kind.retrySeconds(); seconds > 0 {
		header.Set("Retry-After", strconv.Itoa(seconds))
	}
	if p.kind == problemToken {
		header.Set("WWW-Authenticate", "Bearer")
	}
	if p.allow != "" {
		header.Set("Allow", p.allow)
	}
	text := append(p.text(), '\n')
	header.Set("Content-Length", strconv.Itoa(len(text)))
	w.WriteHeader(p.Status)
	_, _ = w.Write(text)
}

var (
	contentProblem = []string{"application/problem+json"}
	contentJSON    = []string{"application/json"}
)
