package service

import (
	"net/url"
	"testing"
)

func TestServiceName(t *testing.T) {
	for _, it := range []struct{ path, due string }{
		{"/v1/services/shipping", "shipping"},
		{"/v1/services/Drivers%20part", "Drivers part"},
		{"/v1/services/a%2Fb", "a/b"},
		{"/v1/services/a/b", "a/b"},
		{"/v1/services/a%252Fb", "a%2Fb"},
		{"/v1/services/Gr%C3%B6%c3%9fe", "Größe"},
		{"/v1/services/a+b", "a+b"},
		{"/v1/services/", ""},
	} {
		path, err := url.ParseRequestURI(it.path)
		if err != nil {
			t.Fatal(err)
		}
		if name, p := nameBelow(path, servicesPath); p != nil || name != it.due {
			t.Errorf("%s names %q, and %q is due (%v)", it.path, name, it.due, p)
		}
	}
}
