package sender

import (
	"context"
	"errors"

	"gateway/rabbit/bus"
)

// Claim claims the sender's name, if it has its own.
func (s *Sender) Claim(ctx context.Context) error {
	if !s.options.Named {
		return nil
	}
	return s.withClaim(ctx, func(link bus.Link, claim *bus.Claim) error {
		s.epoch = claim.Epoch
		return nil
	})
}

// watchName watches for a newer process with the name, until the context ends.
func (s *Sender) watchName(ctx context.Context) {
	if !s.options.Named {
		return
	}
	err := s.withClaim(ctx, func(link bus.Link, claim *bus.Claim) error {
		for {
			select {
			case message, open := <-claim.Reader().Arrivals():
				if !open {
					return claim.Reader().Ended()
				}
				if err := claim.Look(message); err != nil {
					return err
				}
			case <-link.Done():
				return link.Err()
			}
		}
	})
	s.failFinally(err)
}

// failFinally ends everything if the error is final.
func (s *Sender) failFinally(err error) {
	var final *bus.Final
	if errors.As(err, &final) {
		s.fail(final.Reason)
	}
}

// Check checks whether a newer process claimed the name before now. The error is *bus.Superseded then.
func (s *Sender) Check(ctx context.Context) error {
	if !s.options.Named {
		return nil
	}
	if err := s.withClaim(ctx, func(_ bus.Link, claim *bus.Claim) error { return claim.Check() }); err != nil {
		return err
	}
	select {
	case reason := <-s.fault:
		return butRescaled(reason)
	default:
		return nil
	}
}

// withClaim does some work with the claim of the name, again and again until it succeeds. It makes the claim if there is none.
// If a newer process has claimed the name, the sender fails.
func (s *Sender) withClaim(ctx context.Context, work func(bus.Link, *bus.Claim) error) error {
	return bus.Again(ctx, s.options.Bus, s.options.Log, func(ctx context.Context) error {
		link, err := s.connect(ctx)
		if err != nil {
			return err
		}
		defer link.Close()
		claim, err := s.claimOver(link)
		if err == nil {
			err = work(link, claim)
		}
		var newer *bus.Superseded
		if errors.As(err, &newer) {
			s.fail(newer)
			return nil
		}
		return err
	})
}

func (s *Sender) claimOver(link bus.Link) (*bus.Claim, error) {
	if s.epoch > 0 {
		return bus.FindClaim(link, s.options.Name, s.epoch)
	}
	return bus.ClaimName(link, s.options.Name)
}

func (s *Sender) connect(ctx context.Context) (bus.Link, error) {
	return s.options.Bus.Connect(ctx, "desk send, "+s.options.Name, "")
}
