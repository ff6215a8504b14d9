package command

import (
	"crypto/tls"
	"crypto/x509"
	"errors"
	"fmt"
	"net"
	"os"
	"sync/atomic"
	"syscall"

	"github.com/spf13/pflag"

	"gateway/service"
)

// tlsFiles are the files of a server's certificates.
type tlsFiles struct{ cert, key, clientCA string }

func (t *tlsFiles) add(flags *pflag.FlagSet) {
	flags.StringVar(&t.cert, "tls-cert", "", "Speak TLS with the certificate in this `FILE`, in PEM; SIGHUP reads it again")
	flags.StringVar(&t.key, "tls-key", "", "Its key is in this `FILE`")
	flags.StringVar(&t.clientCA, "tls-client-ca", "", "Ask callers for a certificate of one of those in this `FILE`")
}

// read reads the files.
func (t *tlsFiles) read() (*tls.Config, error) {
	pair, err := tls.LoadX509KeyPair(t.cert, t.key)
	if err != nil {
		return nil, fmt.Errorf("reading the certificate: %w", err)
	}
	config := &tls.Config{Certificates: []tls.Certificate{pair}, MinVersion: tls.VersionTLS12, NextProtos: []string{"http/1.1"}}
	if t.clientCA == "" {
		return config, nil
	}
	text, err := os.ReadFile(t.clientCA)
	if err != nil {
		return nil, fmt.Errorf("reading the certificates of callers: %w", err)
	}
	config.ClientCAs, config.ClientAuth = x509.NewCertPool(), tls.RequireAndVerifyClientCert
	if !config.ClientCAs.AppendCertsFromPEM(text) {
		return nil, fmt.Errorf("reading the certificates of callers: %s has none", t.clientCA)
	}
	return config, nil
}

// setTLS sets up TLS, if requested. Each connection uses the certificates read last.
func setTLS(options *service.Options, files tlsFiles) error {
	if (files.cert == "") != (files.key == "") || files.cert == "" && files.clientCA != "" {
		return wrong("TLS needs --tls-cert and --tls-key")
	}
	if files.cert == "" {
		return nil
	}
	var last atomic.Pointer[tls.Config]
	options.Reload = func() error {
		config, err := files.read()
		if err == nil {
			last.Store(config)
		}
		return err
	}
	options.TLS = &tls.Config{MinVersion: tls.VersionTLS12, GetConfigForClient: func(*tls.ClientHelloInfo) (*tls.Config, error) {
		return last.Load(), nil
	}}
	return options.Reload()
}

// unixStart begins the address of a unix socket.
const unixStart = "unix:"

// listenUnix listens at a file. It removes one that an ended process left.
func listenUnix(path string) (net.Listener, error) {
	listener, err := net.Listen("unix", path)
	if !errors.Is(err, syscall.EADDRINUSE) {
		return listener, err
	}
	if there, dialed := net.Dial("unix", path); dialed == nil {
		there.Close()
		return nil, err
	}
	if info, found := os.Lstat(path); found != nil || info.Mode()&os.ModeSocket == 0 {
		return nil, err
	}
	if err := os.Remove(path); err != nil {
		return nil, err
	}
	return net.Listen("unix", path)
}
