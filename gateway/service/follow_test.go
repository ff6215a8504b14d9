package service

import (
	"encoding/json"
	"fmt"
	"os"
	"path/filepath"
	"strings"
	"sync"
	"testing"
	"time"

	"gateway/release"
)

// putRelease keeps a model as a release in a folder.
func putRelease(t *testing.T, folder, name, version, model string) string {
	t.Helper()
	source, err := ReadSource([]byte(model))
	if err != nil {
		t.Fatal(err)
	}
	source.Release = &Release{Name: name, Version: version, Who: "ann", When: "2026-11-29T07:00:00Z", Why: "a new price"}
	text, err := source.text()
	if err != nil {
		t.Fatal(err)
	}
	file := release.FileName(name, version)
	if err := release.Put(folder, file, text); err != nil {
		t.Fatal(err)
	}
	return file
}

func activate(t *testing.T, folder, file string) {
	t.Helper()
	if err := release.Activate(folder, release.Active{File: file, Who: "ann"}, nil); err != nil {
		t.Fatal(err)
	}
}

// waitFor asks until the answer is the expected one.
func (r *running) waitFor(t *testing.T, due string) time.Duration {
	t.Helper()
	begin := time.Now()
	for {
		_, text, _ := send(t, "POST", r.url+"/v1/services/s", `{"a":1}`)
		if text == due {
			return time.Since(begin)
		}
		if time.Since(begin) > time.Minute {
			t.Fatalf("it is %s, and %s is due: %q", text, due, r.said())
		}
		time.Sleep(10 * time.Millisecond)
	}
}

func (r *running) said() string {
	r.mu.Lock()
	defer r.mu.Unlock()
	return strings.Join(r.log, "\n")
}

// A release is put in force by a rename, and everything that names the model in force names it.
func TestFollowsReleases(t *testing.T) {
	folder := t.TempDir()
	one, two := putRelease(t, folder, "adding", "1", adding(1)), putRelease(t, folder, "adding", "2", adding(2))
	activate(t, folder, one)
	r := serve(t, adding(100), Options{Releases: folder})
	r.waitFor(t, `{"result":2}`)
	activate(t, folder, two)
	r.waitFor(t, `{"result":3}`)
	source, _ := ReadSource([]byte(adding(2)))
	_, text, header := send(t, "GET", r.url+"/v1/model", "")
	var page struct {
		SHA256, Origin string
		Release        Release
	}
	if err := json.Unmarshal([]byte(text), &page); err != nil || page.SHA256 != source.Sum() || page.Origin != "release" ||
		page.Release.Version != "2" || page.Release.Who != "ann" || page.Release.Why != "a new price" || header.Get("Desk-Model") != source.Sum() {
		t.Errorf("%s", text)
	}
	if _, text, _ := send(t, "GET", r.url+"/readyz", ""); !strings.Contains(text, `"name":"adding","version":"2"`) || !strings.Contains(text, source.Sum()) {
		t.Errorf("%s", text)
	}
	due := fmt.Sprintf(`desk_model_info{name="adding",origin="release",sha256="%s",version="2"} 1`, source.Sum())
	if _, text, _ := send(t, "GET", r.url+"/metrics", ""); !strings.Contains(text, due) {
		t.Errorf("%s is due", due)
	}
	if _, err := release.Back(folder, func(file string) (release.Active, error) { return release.Active{File: file}, nil }); err != nil {
		t.Fatal(err)
	}
	r.waitFor(t, `{"result":2}`)
	r.stop(t)
	if said := r.said(); !strings.Contains(said, "the release adding 2 is in force, put there by ann") {
		t.Errorf("%q", said)
	}
}

// A release that has a fault, or isn't the one that was put in force, changes nothing. The next one is taken.
func TestFaultyReleases(t *testing.T) {
	folder := t.TempDir()
	activate(t, folder, putRelease(t, folder, "adding", "1", adding(1)))
	r := serve(t, adding(100), Options{Releases: folder})
	defer r.stop(t)
	activate(t, folder, putRelease(t, folder, "adding", "2", strings.Replace(adding(2), "a + 2", "a +", 1)))
	r.wait(t, "the release in force stays as it is: adding-2.json")
	other := putRelease(t, folder, "adding", "3", adding(3))
	if err := release.Activate(folder, release.Active{File: other, Sum: strings.Repeat("0", 64)}, nil); err != nil {
		t.Fatal(err)
	}
	r.wait(t, "was put in force")
	r.waitFor(t, `{"result":2}`)
	if r.metric(t, "desk_http_release_faults_total") < 2 {
		t.Error("the faults are not counted")
	}
	activate(t, folder, other)
	r.waitFor(t, `{"result":4}`)
}

func (r *running) wait(t *testing.T, due string) {
	t.Helper()
	for until := time.Now().Add(time.Minute); !strings.Contains(r.said(), due); time.Sleep(10 * time.Millisecond) {
		if time.Now().After(until) {
			t.Fatalf("%q, and %s is due", r.said(), due)
		}
	}
}

// PUT makes a release. A restarted service serves it, whatever the command line says.
func TestPutMakesARelease(t *testing.T) {
	folder := filepath.Join(t.TempDir(), "releases")
	if err := os.Mkdir(folder, 0o700); err != nil {
		t.Fatal(err)
	}
	r := serve(t, adding(1), Options{Releases: folder})
	status, text, _ := send(t, "PUT", r.url+"/v1/model?name=adding&version=7&why=for%20tests", adding(7))
	if status != 200 || !strings.Contains(text, `"name":"adding","version":"7","who":"this machine, without a token"`) {
		t.Errorf("%d %s", status, text)
	}
	r.waitFor(t, `{"result":8}`)
	if status, text, _ := send(t, "PUT", r.url+"/v1/model?name=adding&version=7", adding(8)); status != 409 || !strings.Contains(text, "/problems/version") {
		t.Errorf("%d %s", status, text)
	}
	if status, _, _ := send(t, "PUT", r.url+"/v1/model?name=%ff", adding(8)); status != 400 {
		t.Errorf("%d", status)
	}
	if status, text, _ := send(t, "PUT", r.url+"/v1/model", adding(9)); status != 200 || !strings.Contains(text, `"name":"adding","version":"20`) {
		t.Errorf("%d %s", status, text)
	}
	r.stop(t)
	files, err := release.Files(folder)
	if err != nil || len(files) != 2 {
		t.Errorf("%v %v", files, err)
	}
	r = serve(t, adding(1), Options{Releases: folder})
	r.waitFor(t, `{"result":10}`)
	r.stop(t)
}

// SIGHUP reads the file of the release in force again.
func TestReleasesAreReadAgain(t *testing.T) {
	folder := t.TempDir()
	file := putRelease(t, folder, "adding", "1", adding(1))
	activate(t, folder, file)
	turn := make(chan struct{})
	r := serve(t, adding(100), Options{Releases: folder, Turn: turn})
	defer r.stop(t)
	if err := os.WriteFile(filepath.Join(folder, file), []byte(adding(5)), 0o600); err != nil {
		t.Fatal(err)
	}
	r.waitFor(t, `{"result":2}`)
	turn <- struct{}{}
	r.waitFor(t, `{"result":6}`)
}

// A model put earlier is logged at the start, with who put it, and has a metric.
func TestOverriddenModels(t *testing.T) {
	state := filepath.Join(t.TempDir(), "state.json")
	r := serve(t, adding(1), Options{State: state})
	send(t, "PUT", r.url+"/v1/model?why=tests", adding(5))
	if r.metric(t, "desk_http_model_overridden") != 0 {
		t.Error("a model that was put now is not one that was put before the start")
	}
	r.stop(t)
	r = serve(t, adding(1), Options{State: state})
	defer r.stop(t)
	if said := r.said(); !strings.Contains(said, "serving the model last put") || !strings.Contains(said, "It was put by this machine, without a token, 20") {
		t.Errorf("%q", said)
	}
	if r.metric(t, "desk_http_model_overridden") != 1 {
		t.Error("the metric does not say so")
	}
}

// With a folder of releases its files win, and a model put earlier is logged.
func TestReleasesWinOverWhatWasPut(t *testing.T) {
	journal, folder := filepath.Join(t.TempDir(), "journal"), t.TempDir()
	r := serve(t, adding(1), Options{Journal: journal})
	send(t, "PUT", r.url+"/v1/model?name=adding&version=5", adding(5))
	r.stop(t)
	activate(t, folder, putRelease(t, folder, "adding", "2", adding(2)))
	r = serve(t, adding(1), Options{Journal: journal, Releases: folder})
	defer r.stop(t)
	r.waitFor(t, `{"result":3}`)
	if said := r.said(); !strings.Contains(said, "model.json, is not served") || !strings.Contains(said, "It was put by this machine, without a token, 20") {
		t.Errorf("%q", said)
	}
	if r.metric(t, "desk_http_model_overridden") != 0 {
		t.Error("the metric says that a model that was put is served")
	}
}

// A release has the name of the token that put it. If-Match refers to what the folder names, which another service may
// have put.
func TestPutFollowsWhatTheFolderNames(t *testing.T) {
	folder := t.TempDir()
	activate(t, folder, putRelease(t, folder, "adding", "1", adding(1)))
	tokens := writeTokens(t, "shop call one", "deploy put two")
	var services []*running
	for n := 0; n < 2; n++ {
		services = append(services, serve(t, adding(100), Options{Releases: folder, Tokens: tokens}))
		defer services[n].stop(t)
	}
	put := func(n, version int) (int, string) {
		status, text, _ := send(t, "PUT", fmt.Sprintf("%s/v1/model?name=adding&version=%d", services[n].url, version), adding(version),
			"If-Match", `"`+modelSum(t, adding(1))+`"`, "Authorization", "Bearer two")
		return status, text
	}
	if status, text := put(0, 2); status != 200 || !strings.Contains(text, `"who":"deploy"`) {
		t.Errorf("%d %s", status, text)
	}
	// Whether or not the second service follows yet, another release is in force.
	if status, text := put(1, 3); status != 412 || !strings.Contains(text, "/problems/match") {
		t.Errorf("%d %s", status, text)
	}
	files, err := release.Files(folder)
	if active, _, _ := release.ReadActive(folder); err != nil || len(files) != 2 || active.File != "adding-2.json" || active.Who != "deploy" {
		t.Errorf("%v (%v), and %+v is in force", files, err, active)
	}
}

// The file that names the release in force may be renamed by hand, and the JSON log has a line for it.
func TestRenamedByHand(t *testing.T) {
	folder := t.TempDir()
	activate(t, folder, putRelease(t, folder, "adding", "1", adding(1)))
	two := putRelease(t, folder, "adding", "2", adding(2))
	var mu sync.Mutex
	var written []string
	r := serve(t, adding(100), Options{Releases: folder, Access: func(line []byte) {
		mu.Lock()
		defer mu.Unlock()
		if strings.Contains(string(line), `"event":"release"`) {
			written = append(written, string(line))
		}
	}})
	r.waitFor(t, `{"result":2}`)
	next := filepath.Join(t.TempDir(), "next")
	if err := os.WriteFile(next, []byte(`{"file":"`+two+`","who":"bob"}`), 0o600); err != nil {
		t.Fatal(err)
	}
	if err := os.Rename(next, filepath.Join(folder, "active.json")); err != nil {
		t.Fatal(err)
	}
	r.waitFor(t, `{"result":3}`)
	r.stop(t)
	mu.Lock()
	defer mu.Unlock()
	due := `"caller":"bob","name":"adding","version":"2","why":"a new price","sha256":"` + modelSum(t, adding(2)) + `","before":"` + modelSum(t, adding(1)) + `"`
	if len(written) != 1 || !strings.Contains(written[0], due) {
		t.Errorf("%q, and %s is due", written, due)
	}
}

// The file of a release is read once, and again when another takes its place. A removed one is forgotten.
func TestReleasesAreReadOnce(t *testing.T) {
	folder := t.TempDir()
	file := putRelease(t, folder, "adding", "1", adding(1))
	activate(t, folder, file)
	r := serve(t, adding(100), Options{Releases: folder})
	defer r.stop(t)
	path := filepath.Join(folder, file)
	about, err := os.Stat(path)
	if err != nil {
		t.Fatal(err)
	}
	text, err := os.ReadFile(path)
	if err != nil {
		t.Fatal(err)
	}
	first, second := modelSum(t, adding(1)), modelSum(t, adding(2))
	listed := func(due string) {
		t.Helper()
		if status, text, _ := send(t, "GET", r.url+"/v1/releases", ""); status != 200 || !strings.Contains(text, due) {
			t.Errorf("%d %s, and %s is due", status, text, due)
		}
	}
	listed(`"sha256":"` + first + `","name":"adding","version":"1"`)
	if err := os.WriteFile(path, []byte(strings.Replace(string(text), "a + 1", "a + 2", 1)), 0o600); err != nil {
		t.Fatal(err)
	}
	if err := os.Chtimes(path, about.ModTime(), about.ModTime()); err != nil {
		t.Fatal(err)
	}
	listed(first)
	if err := os.Chtimes(path, about.ModTime(), about.ModTime().Add(time.Second)); err != nil {
		t.Fatal(err)
	}
	listed(second)
	if err := os.WriteFile(path, []byte("{"), 0o600); err != nil {
		t.Fatal(err)
	}
	listed(`"file":"adding-1.json","active":true,"fault":"`)
	if err := os.Remove(path); err != nil {
		t.Fatal(err)
	}
	listed(`{"releases":[]}`)
}
