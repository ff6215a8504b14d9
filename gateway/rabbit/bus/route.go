package bus

import "fmt"

// The exchanges. Both are topic exchanges, so the broker's permissions say who may publish what. Each message read has the
// exchange and topic under which it was published; messages with others don't count.
const (
	RequestsExchange = prefix + "requests" // leads to the logs and the registry
	AnswersExchange  = prefix + "answers"  // leads to the answer streams and the leases
)

// A Topic says what a message is. A routing key begins with it.
type Topic string

// The topics of the request exchange, of the answer exchange, and of both.
const (
	TopicLines   Topic = "lines"   // requests, claims of names, ends of batches
	TopicModels  Topic = "models"  // lines with models, and requests among them
	TopicSenders Topic = "senders" // the registry, which has no partition
	TopicScale   Topic = "scale"   // the number of partitions
	TopicLooks   Topic = "looks"   // marks without content from whoever reads the scale stream. Senders may publish it, so it is not TopicMarks
	TopicAnswers Topic = "answers" // answers and snapshots
	TopicLease   Topic = "lease"
	TopicMarks   Topic = "marks" // messages without content
)

// A Route is where a message is published.
type Route struct{ Exchange, Key string }

// RegistryRoute leads to the registry.
var RegistryRoute = Route{RequestsExchange, string(TopicSenders)}

// Route returns where messages of a topic are published for a partition.
func (s Settings) Route(exchange string, topic Topic, partition int) Route {
	return Route{exchange, fmt.Sprintf("%s.%s", topic, s.name(partition))}
}

// A Binding leads messages of a route to a stream or a lease.
type Binding struct {
	Queue string
	Route Route
}

// Bindings returns the bindings of a partition, and of the registry.
func (s Settings) Bindings(partition int) []Binding {
	of := func(kind Kind, exchange string, topic Topic) Binding {
		return Binding{s.Queue(kind, partition), s.Route(exchange, topic, partition)}
	}
	return []Binding{
		of(Lines, RequestsExchange, TopicLines), of(Lines, RequestsExchange, TopicModels), of(Lines, RequestsExchange, TopicMarks),
		of(Answers, AnswersExchange, TopicAnswers), of(Answers, AnswersExchange, TopicMarks),
		of(Lease, AnswersExchange, TopicLease), {Registry, RegistryRoute}, {Scale, ScaleRoute}, {Scale, LookRoute},
	}
}
