//go:build cgo

package scf_test

import (
	"errors"
	"fmt"

	scf "example.org/scf/library/go"
)

var profile = scf.Profile{
	Text: []byte(`{"defaultAction": "SCMP_ACT_ERRNO",
		"syscalls": [{"names": ["read", "write"], "action": "SCMP_ACT_ALLOW"}]}`),
}
var table = scf.Table{Architecture: scf.X86_64, Text: scf.SyscallTable(scf.X86_64)}

// A profile is compiled, and the filter's answer to socket(2) asked for.
func ExampleRun() {
	filter, _, err := profile.Compile(table)
	if err != nil {
		fmt.Println(err)
		return
	}
	answer, _, err := scf.Run(filter, scf.Call{Nr: 41, Arch: scf.X86_64.Audit()})
	fmt.Println(answer, err)
	// Output: ERRNO 1 <nil>
}

// A filter that allows everything isn't what the profile says.
func ExampleCompare() {
	allowAll, err := scf.Assemble("ret #0x7fff0000\n")
	if err != nil {
		fmt.Println(err)
		return
	}
	compared, err := scf.Compare(scf.Filters{allowAll}, profile, scf.OneCall(scf.X86_64, 41), scf.NoMore, scf.Limit, table)
	fmt.Println(compared.Verdict, compared.Call.Nr, compared.Left, "beside", compared.Right, err)
	// Output: fails 41 ALLOW 0 beside ERRNO 1 <nil>
}

// An input that isn't accepted is a Fault, with its numbers, and its kind is an error.
func ExampleFault() {
	_, err := scf.Assemble("rat\n")
	var fault *scf.Fault
	if errors.As(err, &fault) && errors.Is(err, scf.KindMnemonic) {
		fmt.Println("line", fault.Numbers[0])
	}
	// Output: line 1
}
