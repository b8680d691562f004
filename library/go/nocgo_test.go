//go:build !cgo

package scf

import (
	"errors"
	"testing"
)

func TestWithoutCgo(t *testing.T) {
	_, of := Check(nil)
	_, compared := Compare(Filters{}, Profile{}, All, Same, Limit)
	_, _, compiled := Profile{}.Compile()
	for _, err := range []error{of, compared, compiled} {
		if !errors.Is(err, ErrNoCgo) {
			t.Error(err)
		}
	}
}
