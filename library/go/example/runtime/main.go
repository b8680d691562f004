// Runtime does what a container runtime does with the seccomp object of its config.json: libscf reads it as the runtime
// does, makes its filter, or takes one that was made before, proves that it answers every syscall of each architecture
// as the profile says and allows none of the others that a program of x86-64 can make, loads it, and executes a program.
//
//	runtime [-reading runc|crun] [-stub NUMBER] [-filter FILE] CONFIG PROGRAM ARGUMENT..
//
// NUMBER is the first of x86-64 that runc's stub answers by ENOSYS. Status 1: the filter isn't what the profile says;
// the message names a syscall. Status 3: an input is refused, or the filter can't be loaded.
package main

import (
	"flag"
	"fmt"
	"os"
	"os/exec"
	"runtime"
	"syscall"

	scf "example.org/scf/library/go"
)

func end(status int, message any) {
	fmt.Fprintln(os.Stderr, message)
	os.Exit(status)
}

// must is the value of a call, if it has one.
func must[T any](value T, err error) T {
	if err != nil {
		end(3, err)
	}
	return value
}

// prove ends the program unless the filter is proved to be the profile's, as by scf.IsProved, and names a syscall.
func prove(filter []byte, profile scf.Profile, tables []scf.Table) {
	hold(must(scf.Compare(scf.Filters{filter}, profile, scf.EachArchitecture, scf.Same, scf.Limit, tables...)))
	for _, abi := range scf.X86_64ABIs {
		hold(must(scf.Compare(scf.Filters{filter}, profile, abi, scf.NoMore, scf.Limit, tables...)))
	}
}

// hold ends the program unless what was asked is proved.
func hold(compared scf.Comparison) {
	if compared.RightOut.NotLookedAt != 0 {
		end(1, "an architecture that is listed has no table")
	}
	switch compared.Verdict {
	case scf.Holds:
	case scf.Fails:
		end(1, fmt.Sprintf("the filter answers %v by %v, and the profile by %v", compared.Call, compared.Left,
			compared.Right))
	default:
		end(1, "the filter isn't proved to answer as the profile")
	}
}

func main() {
	runtime.LockOSThread() // whose filter it is
	reading := flag.String("reading", "strict", "how the profile is read")
	stub := flag.Int("stub", -1, "the first number that runc's stub answers")
	file := flag.String("filter", "", "the filter, if it isn't to be made")
	flag.Parse()
	if flag.NArg() < 2 {
		end(2, "usage: runtime [OPTION VALUE].. CONFIG PROGRAM ARGUMENT..")
	}
	readings := map[string]scf.Reading{"strict": scf.Strict, "runc": scf.Runc, "crun": scf.Crun}
	profile := scf.Profile{Text: must(os.ReadFile(flag.Arg(0))), Reading: readings[*reading], SkipUnlisted: true}
	tables := scf.OwnTables()
	if *stub >= 0 {
		tables[0].HasStub, tables[0].Stub = true, uint32(*stub)
	}
	var filter []byte
	if *file != "" {
		filter = must(os.ReadFile(*file))
	} else if made, _, err := profile.Compile(tables...); must(made, err) != nil {
		filter = made
	}
	prove(filter, profile, tables)
	program := must(exec.LookPath(flag.Arg(1)))
	must(scf.Load(filter, 0))
	end(3, syscall.Exec(program, flag.Args()[1:], os.Environ()))
}
