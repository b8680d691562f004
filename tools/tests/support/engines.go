// Resolves profiles by the engines' own code: each line of standard input is a request, each line of standard output
// what the engine made of it, or why it refuses it.
package main

import (
	"bufio"
	"encoding/json"
	"fmt"
	"os"

	podman "github.com/containers/common/pkg/seccomp"
	moby "github.com/docker/docker/profiles/seccomp"
	specs "github.com/opencontainers/runtime-spec/specs-go"
)

type request struct {
	Engine  string
	Caps    []string
	Profile string
}

type answer struct {
	Profile *specs.LinuxSeccomp
	Refused string
}

func resolve(one request) (found answer) {
	defer func() {
		if why := recover(); why != nil {
			found = answer{nil, fmt.Sprint("panic: ", why)}
		}
	}()
	spec := &specs.Spec{Process: &specs.Process{Capabilities: &specs.LinuxCapabilities{Bounding: one.Caps}}}
	load := moby.LoadProfile
	if one.Engine == "podman" {
		load = podman.LoadProfile
	}
	profile, err := load(one.Profile, spec)
	if err != nil {
		return answer{nil, err.Error()}
	}
	return answer{profile, ""}
}

func main() {
	lines := bufio.NewReader(os.Stdin)
	out := json.NewEncoder(os.Stdout)
	for {
		line, err := lines.ReadBytes('\n')
		if err != nil {
			return
		}
		var one request
		if err := json.Unmarshal(line, &one); err != nil {
			panic(err)
		}
		out.Encode(resolve(one))
	}
}
