module gateway

go 1.19

// The versions are those of Debian 12. tools/gateway lays vendor/ from Debian's packages.
require (
	github.com/prometheus/client_golang v1.14.0
	github.com/rabbitmq/amqp091-go v1.5.0
	github.com/spf13/cobra v1.6.1
	github.com/spf13/pflag v1.0.5
	golang.org/x/net v0.7.0
	golang.org/x/sys v0.3.0
)

require (
	github.com/beorn7/perks v1.0.1 // indirect
	github.com/cespare/xxhash/v2 v2.1.1 // indirect
	github.com/golang/protobuf v1.3.5 // indirect
	github.com/matttproud/golang_protobuf_extensions v1.0.1 // indirect
	github.com/prometheus/client_model v0.3.0 // indirect
	github.com/prometheus/common v0.39.0 // indirect
	github.com/prometheus/procfs v0.8.0 // indirect
	google.golang.org/protobuf v1.28.1 // indirect
)
