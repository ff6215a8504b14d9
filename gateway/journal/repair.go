package journal

import (
	"bufio"
	"bytes"
	"encoding/json"
	"fmt"
	"os"
	"path/filepath"
)

const (
	// shortTail usually has the last line.
	shortTail = 8 << 10
	// longTail is more than the two longest entries at the end of a journal, one of them partial.
	longTail = 40 << 20
)

// repair cuts partial entries from each file, and returns the files.
func repair(folder string) (past []kept, repaired []string, err error) {
	names, err := filepath.Glob(filepath.Join(folder, "*"+suffix))
	if err != nil {
		return nil, nil, fmt.Errorf("opening the journal: %w", err)
	}
	for at, name := range names {
		among := int64(shortTail)
		if at == len(names)-1 {
			among = longTail
		}
		it, cut, err := repairFile(name, among)
		if err != nil {
			return nil, nil, fmt.Errorf("opening the journal: repairing %s: %w", name, err)
		}
		if cut > 0 {
			repaired = append(repaired, fmt.Sprintf("%s: the last %d bytes were written in part, and were cut", name, cut))
		}
		if it.size > 0 {
			past = append(past, it)
		}
	}
	return past, repaired, nil
}

// lastOf returns the last entry of all files.
func lastOf(past []kept) (last link) {
	for _, it := range past {
		if it.at.n > last.n {
			last = it.at
		}
	}
	return last
}

// repairFile cuts a file after its last whole entry, and returns by how many bytes. It looks at the last bytes first. It
// removes an empty file.
func repairFile(name string, among int64) (it kept, cut int64, err error) {
	opened, err := os.OpenFile(name, os.O_RDWR, 0)
	if err != nil {
		return it, 0, err
	}
	defer opened.Close()
	stat, err := opened.Stat()
	if err != nil {
		return it, 0, err
	}
	size := stat.Size()
	it = kept{path: name, ended: stat.ModTime(), first: firstIn(opened)}
	it.size, it.at, err = it.wholeBytes(opened, size, among)
	if err == nil && it.size != size && among < longTail {
		it.size, it.at, err = it.wholeBytes(opened, size, longTail)
	}
	if err != nil {
		return it, 0, err
	}
	it.last = it.at.n
	if it.size == 0 {
		return it, size, os.Remove(name)
	}
	if it.size == size {
		return it, 0, nil
	}
	if err := opened.Truncate(it.size); err != nil {
		return it, 0, err
	}
	return it, size - it.size, opened.Sync()
}

// firstIn returns the number of a file's first entry, or 0.
func firstIn(opened *os.File) uint64 {
	if _, err := opened.Seek(0, 0); err != nil {
		return 0
	}
	from := bufio.NewReaderSize(opened, 64<<10)
	for n := 0; n < 2; n++ {
		line, err := from.ReadBytes('\n')
		if err != nil {
			return 0
		}
		if at, is := linkIn(line[:len(line)-1]); is {
			return at.n
		}
	}
	return 0
}

// wholeBytes returns how many bytes of a file end with a whole entry, or with a JSON line in a file without entries; and the
// entry. It looks among the last bytes.
func (k *kept) wholeBytes(opened *os.File, size, among int64) (int64, link, error) {
	from := size - among
	if from < 0 {
		from = 0
	}
	tail := make([]byte, size-from)
	if _, err := opened.ReadAt(tail, from); err != nil {
		return 0, link{}, err
	}
	// After a loss of power, unwritten bytes are zeros.
	if zero := bytes.IndexByte(tail, 0); zero >= 0 {
		tail = tail[:zero]
	}
	kept, at := 0, link{}
	if k.first > 0 {
		kept, at = wholeEntries(tail)
	} else {
		kept = wholeLines(tail)
	}
	if kept == 0 && from > 0 && among == longTail {
		return 0, link{}, fmt.Errorf("its last %d bytes have no whole line", among)
	}
	return from + int64(kept), at, nil
}

// wholeEntries returns how many bytes of a text end with an entry, and that entry; its number is 0 if there is none.
func wholeEntries(text []byte) (int, link) {
	end := bytes.LastIndexByte(text, '\n') + 1
	for end > 0 {
		begin := bytes.LastIndexByte(text[:end-1], '\n') + 1
		if at, is := linkIn(text[begin : end-1]); is && json.Valid(text[begin:end]) {
			return end, at
		}
		end = begin
	}
	return 0, link{}
}

// wholeLines returns how many bytes of a text end with a JSON line. After a loss of power a file may end with unwritten bytes.
func wholeLines(text []byte) int {
	end := bytes.LastIndexByte(text, '\n') + 1
	for end > 0 {
		begin := bytes.LastIndexByte(text[:end-1], '\n') + 1
		if json.Valid(text[begin:end]) {
			break
		}
		end = begin
	}
	return end
}
