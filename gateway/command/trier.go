package command

import (
	"context"
	"encoding/json"
	"time"

	"gateway/compare"
	"gateway/record"
	"gateway/service"
)

// A trier compares two models for the service over HTTP.
type trier struct {
	path     string
	memory   uint64
	atOnce   int
	patience time.Duration
}

// Changes returns the differences between the models.
func (t *trier) Changes(old, new *service.Source) (json.RawMessage, error) {
	changes, err := compare.Models(old, new)
	if err != nil {
		return nil, err
	}
	if changes == nil {
		changes = []compare.Change{}
	}
	return json.Marshal(changes)
}

// Try asks both about the requests in a journal.
func (t *trier) Try(ctx context.Context, folder string, it *service.Trial) (*service.Tried, error) {
	trial := &record.Trial{Asker: &record.Asker{Path: t.path, Memory: t.memory}, Old: it.Old, New: it.New, Asked: it.Asked, AtOnce: t.atOnce,
		Patience: t.patience}
	filter := record.Filter{Client: it.Client, Service: it.Service, Rule: it.Rule, Release: it.Release, From: it.From, To: it.To}
	found, err := trial.Run(ctx, folder, filter, func(d *record.Difference) error {
		return it.Take(&service.TrialDifference{ID: d.Case.ID, Request: d.Case.Request, Time: d.Case.Time, Service: d.Case.Service,
			Inputs: d.Inputs, Old: d.Old, New: d.New, Rules: d.Where})
	})
	if err != nil {
		return nil, err
	}
	tried := &service.Tried{Asked: found.Asked, Differing: found.Differing, Left: found.Left}
	for _, rules := range found.Counts() {
		tried.By = append(tried.By, service.TrialCount{Rules: rules, Count: found.By[rules]})
	}
	return tried, nil
}
