package domain

import (
	"testing"

	"gateway/engine/enginetest"
)

func TestMain(m *testing.M) { enginetest.Main(m) }
