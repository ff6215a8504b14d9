package record

import (
	"errors"
	"io"

	"gateway/journal"
	"gateway/model"
)

// heads calls take with each file's head, in file order.
func heads(folder string, take func(*Head)) error {
	paths, err := journal.Files(folder)
	if err != nil {
		return err
	}
	for _, path := range paths {
		it, err := journal.First(path)
		switch {
		case errors.Is(err, io.EOF):
			continue
		case err != nil:
			return err
		case isHead(it):
			take(readHead(it))
		}
	}
	return nil
}

// LastHead returns the last file's head, or nil.
func LastHead(folder string) (last *Head, err error) {
	err = heads(folder, func(it *Head) { last = it })
	return last, err
}

// InputNames returns the input names of all services in a journal, or of one.
func InputNames(folder, service string) (names []string, err error) {
	seen, sums := map[string]bool{}, map[string]bool{}
	err = heads(folder, func(it *Head) {
		if it.Source == nil || sums[it.Release.Sum] {
			return
		}
		sums[it.Release.Sum] = true
		for _, name := range it.inputs(service) {
			if !seen[name] {
				seen[name], names = true, append(names, name)
			}
		}
	})
	return names, err
}

// inputs returns the input names of a service, or of all.
func (h *Head) inputs(service string) (names []string) {
	parsed, err := model.Parse(h.Source.Text)
	if err != nil {
		return nil
	}
	name := func(word string) string {
		if name, is := h.Source.Names[word]; is {
			return name
		}
		return word
	}
	for _, it := range parsed.Services {
		if service != "" && service != it.Name && service != name(it.Name) {
			continue
		}
		for _, word := range append(append([]string(nil), it.InputData...), it.InputDecisions...) {
			names = append(names, name(word))
		}
	}
	return names
}
