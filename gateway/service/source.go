package service

import (
	"encoding/json"
	"errors"
	"fmt"
	"os"
	"path/filepath"

	"gateway/lines"
)

// A Source is a model as read from a file, and what the file says besides.
type Source struct {
	// Text is the model's compact text: JSON without blanks, keys in byte order.
	Text []byte
	// Names has the name in the file for each word of the model that differs from it; empty if the words are the names.
	Names map[string]string
	// Locals is like Names, for words that occur within one decision.
	Locals map[string]string
	// Types has a JSON Schema for each input whose type the file gives.
	Types map[string]json.RawMessage
	// Domains has unary tests for inputs, by their words, and for their components, by their paths: the values that each may have.
	Domains map[string]string
	// Required has the words of the inputs that a caller over HTTP has to give, and not as null.
	Required []string
	// Places has the file's content at each JSON Pointer into the model.
	Places json.RawMessage
	// Diagram has where the file's diagram draws each input and decision, by its word; nil unless it draws all.
	Diagram json.RawMessage
	// Language is that of the file's names and texts, as "de"; empty if not given.
	Language string
	// Release says which model it is; nil if unknown.
	Release *Release
}

// ErrNoModel means that a text isn't a model in JSON. Faults within a model are not found here.
var ErrNoModel = errors.New("it is no model: neither a model in JSON, nor {\"model\":M}, nor what desk import writes")

// imported is what desk import writes; with the model alone it is a line of the engine.
type imported struct {
	Model    json.RawMessage            `json:"model"`
	Names    map[string]string          `json:"names,omitempty"`
	Locals   map[string]string          `json:"locals,omitempty"`
	Types    map[string]json.RawMessage `json:"types,omitempty"`
	Domains  map[string]string          `json:"domains,omitempty"`
	Required []string                   `json:"required,omitempty"`
	Places   json.RawMessage            `json:"places,omitempty"`
	Diagram  json.RawMessage            `json:"diagram,omitempty"`
	Language string                     `json:"language,omitempty"`
	Release  *Release                   `json:"release,omitempty"`
}

// ReadSource reads a model in JSON: the model itself, {"model":M}, or what desk import writes.
func ReadSource(text []byte) (*Source, error) {
	if _, fault := lines.Whole(text, lines.MaxNesting); fault != nil {
		return nil, fault
	}
	var it imported
	if err := json.Unmarshal(text, &it); err != nil {
		return nil, fmt.Errorf("%w: %v", ErrNoModel, err)
	}
	source := &Source{Names: it.Names, Locals: it.Locals, Types: it.Types, Domains: it.Domains, Required: it.Required, Places: it.Places, Diagram: it.Diagram,
		Language: it.Language, Release: it.Release}
	model := []byte(it.Model)
	if model == nil {
		model = text
		source = &Source{}
	}
	tree, err := lines.Tree(model)
	if err != nil {
		return nil, fmt.Errorf("%w: %v", ErrNoModel, err)
	}
	if _, is := tree.(map[string]any); !is {
		return nil, ErrNoModel
	}
	source.Text = lines.Compact(nil, tree)
	return source, nil
}

func (s *Source) imported() imported {
	return imported{Model: s.Text, Names: s.Names, Locals: s.Locals, Types: s.Types, Domains: s.Domains, Required: s.Required, Places: s.Places, Diagram: s.Diagram,
		Language: s.Language, Release: s.Release}
}

// Whole returns the source as desk import writes it, with its release.
func (s *Source) Whole() ([]byte, error) { return s.text() }

// text returns the source as desk import writes it.
func (s *Source) text() ([]byte, error) {
	text, err := plainJSON(s.imported())
	if err != nil {
		return nil, fmt.Errorf("writing the model: %w", err)
	}
	return append(text, '\n'), nil
}

// readState reads the model last put; nil if none was kept.
func readState(path string) (*Source, error) {
	text, err := os.ReadFile(path)
	if errors.Is(err, os.ErrNotExist) {
		return nil, nil
	}
	if err != nil {
		return nil, fmt.Errorf("reading the model last put: %w", err)
	}
	source, err := ReadSource(text)
	if err != nil {
		return nil, fmt.Errorf("reading the model last put: %s: %w", path, err)
	}
	return source, nil
}

// writeState keeps a model. After a crash the file has either the previous one or this one.
func writeState(path string, source *Source) (err error) {
	defer func() {
		if err != nil {
			err = fmt.Errorf("keeping the model: %w", err)
		}
	}()
	text, err := source.text()
	if err != nil {
		return err
	}
	file, err := os.CreateTemp(filepath.Dir(path), filepath.Base(path)+".*")
	if err != nil {
		return err
	}
	defer os.Remove(file.Name())
	_, err = file.Write(text)
	if err == nil {
		err = file.Sync()
	}
	if closed := file.Close(); err == nil {
		err = closed
	}
	if err != nil {
		return err
	}
	if err = os.Rename(file.Name(), path); err != nil {
		return err
	}
	folder, err := os.Open(filepath.Dir(path))
	if err != nil {
		return err
	}
	defer folder.Close()
	return folder.Sync()
}
