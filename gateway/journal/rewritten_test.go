package journal

import (
	"crypto/sha256"
	"encoding/hex"
	"encoding/json"
	"os"
	"regexp"
	"sort"
	"strings"
	"testing"
)

// before is the sum before a file, in its first entry.
var before = regexp.MustCompile(`"before":"[0-9a-f]{64}"`)

// A pair is an entry of two lines: its number and position.
type pair struct {
	number         uint64
	path           string
	asked, covered string
}

// pairs returns a journal's entries, in order.
func pairs(t *testing.T, folder string) []pair {
	t.Helper()
	var found []pair
	for _, path := range paths(t, folder) {
		text, err := os.ReadFile(path)
		if err != nil {
			t.Fatal(err)
		}
		lines := strings.SplitAfter(string(text), "\n")
		for at := 0; at+1 < len(lines); at += 2 {
			var members struct{ N uint64 }
			if err := json.Unmarshal([]byte(lines[at+1]), &members); err != nil {
				t.Fatal(err)
			}
			covered, _, _ := strings.Cut(lines[at+1], `,"chain":"`)
			found = append(found, pair{members.N, path, lines[at], covered})
		}
	}
	sort.Slice(found, func(n, m int) bool { return found[n].number < found[m].number })
	return found
}

// rewrite replaces a text in one entry, and chains all entries again, as the owner of the files could. It returns the entry's
// number.
func rewrite(t *testing.T, folder, old, replaced string) uint64 {
	t.Helper()
	var changed []uint64
	files, sum := map[string]string{}, make([]byte, sha256.Size)
	for _, it := range pairs(t, folder) {
		if strings.Contains(it.covered, old) {
			changed = append(changed, it.number)
		}
		covered := strings.Replace(it.covered, old, replaced, 1)
		covered = it.asked + before.ReplaceAllString(covered, `"before":"`+hex.EncodeToString(sum)+`"`)
		whole := sha256.Sum256(append(sum, covered...))
		sum = whole[:]
		files[it.path] += covered + `,"chain":"` + hex.EncodeToString(sum) + `","close":true}` + "\n"
	}
	if len(changed) != 1 {
		t.Fatalf("%s is in the entries %v", old, changed)
	}
	for path, text := range files {
		if err := os.WriteFile(path, []byte(text), 0o600); err != nil {
			t.Fatal(err)
		}
	}
	return changed[0]
}

// A rewritten chain shows nothing by itself: heads kept elsewhere reveal it, from the changed entry on.
func TestRewrittenChains(t *testing.T) {
	folder, heads := record(t, 40, Options{Size: 1100})
	at := map[string]uint64{}
	for _, head := range heads {
		at[head] = verified(t, folder, head).At
	}
	for _, it := range []struct {
		old, replaced string
		found         int
	}{{`"result":39`, `"result":3`, 1}, {`"result":17`, `"result":71`, 3}, {`"result":0`, `"result":7`, 5}} {
		changed, found := rewrite(t, folder, it.old, it.replaced), 0
		if report := verified(t, folder, ""); len(report.Faults) > 0 || report.Last != uint64(len(pairs(t, folder))) {
			t.Fatalf("%s: the chain is not whole: %+v", it.old, report)
		}
		for head, number := range at {
			report := verified(t, folder, head)
			if is := number >= changed; is != (len(report.Faults) > 0) || is != (report.At == 0) {
				t.Errorf("%s in entry %d, the head of entry %d: %+v", it.old, changed, number, report)
			} else if is {
				found++
			}
		}
		if found != it.found {
			t.Errorf("%s: %d of %d heads find it, and %d are due", it.old, found, len(at), it.found)
		}
	}
}
