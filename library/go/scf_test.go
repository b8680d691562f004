//go:build cgo

package scf

import (
	"errors"
	"reflect"
	"runtime"
	"strings"
	"sync"
	"syscall"
	"testing"
	"unsafe"
)

// The answers are those of linux/seccomp.h and of the OCI specification.
const (
	retAllow       = 0x7fff0000
	retEperm       = 0x00050001
	retKillProcess = 0x80000000
)

var (
	allow = []byte{6, 0, 0, 0, 0, 0, 0xff, 0x7f}
	deny  = []byte{6, 0, 0, 0, 1, 0, 5, 0}
	// Word 4 with its lowest bit set, XOR the word, has no other bit, so this denies; but no comparison splits that far.
	unknown = []byte{0x20, 0, 0, 0, 16, 0, 0, 0, 7, 0, 0, 0, 0, 0, 0, 0, 0x44, 0, 0, 0, 1, 0, 0, 0,
		0xac, 0, 0, 0, 0, 0, 0, 0, 0x74, 0, 0, 0, 1, 0, 0, 0,
		0x15, 0, 0, 1, 0, 0, 0, 0, 6, 0, 0, 0, 1, 0, 5, 0, 6, 0, 0, 0, 0, 0, 0xff, 0x7f}
	profile = Profile{Text: []byte(`{"defaultAction": "SCMP_ACT_ERRNO",
		"syscalls": [{"names": ["read"], "action": "SCMP_ACT_ALLOW"}]}`)}
	table       = Table{Architecture: X86_64, Text: []byte("read 0\nwrite 1\n")}
	x86_64      = X86_64.Audit()
	read, write = Call{Nr: 0, Arch: x86_64}, Call{Nr: 1, Arch: x86_64}
)

func is(t *testing.T, actual, wanted any) {
	t.Helper()
	if !reflect.DeepEqual(actual, wanted) {
		t.Errorf("%v, not %v", actual, wanted)
	}
}

func refused(t *testing.T, err error, source Source, kind Kind, first uint64) {
	t.Helper()
	var fault *Fault
	if !errors.As(err, &fault) || *fault != (Fault{source, kind, [3]uint64{first, 0, 0}}) || !errors.Is(err, kind) {
		t.Error(err)
	}
}

func TestFilters(t *testing.T) {
	major, minor, patch := Version()
	is(t, []uint32{major, minor, patch}, []uint32{0, 1, 0})
	count, err := Check(allow)
	is(t, []any{count, err}, []any{1, nil})
	_, err = Check(nil)
	refused(t, err, SourceFilter, KindEmpty, 0)
	_, err = Check(append(allow[:8:8], 6))
	refused(t, err, SourceFilter, KindTruncated, 8)
	answer, steps, err := Run(allow, read)
	is(t, []any{answer, steps, err}, []any{Answer(retAllow), 1, nil})
	answer, path, err := Trace(deny, read)
	is(t, []any{answer, path, err}, []any{Answer(retEperm), []int{0}, nil})
	for _, row := range []struct {
		filters  [][]byte
		decision Decision
	}{{[][]byte{deny, allow}, Decision{retEperm, true, 0, 0}}, {[][]byte{allow, deny}, Decision{retEperm, true, 1, 0}},
		{nil, Decision{retAllow, false, 0, 0}}} {
		decision, err := Decide(row.filters, read)
		is(t, []any{decision, err}, []any{row.decision, nil})
	}
}

func TestTexts(t *testing.T) {
	filter, err := Assemble("ret #0x7fff0000\n")
	is(t, []any{filter, err}, []any{allow, nil})
	_, err = Assemble("\nrat\n")
	refused(t, err, SourceText, KindMnemonic, 2)
	text, _ := List(deny)
	filter, err = Assemble(text)
	is(t, []any{filter, err}, []any{deny, nil})
}

func TestProfiles(t *testing.T) {
	for _, row := range []struct {
		call   Call
		answer Answer
		why    Reason
	}{{read, retAllow, ByEntry}, {write, retEperm, ByDefault}, {Call{}, retKillProcess, Foreign}} {
		answer, err := profile.Ask(row.call, table)
		is(t, []any{answer, err}, []any{ProfileAnswer{row.answer, row.why, 0, LeftOut{}}, nil})
	}
	_, _, err := Profile{Text: []byte("{}")}.Compile(table)
	refused(t, err, SourceProfile, KindMissing, NoEntry)
	filter, _, _ := profile.Compile(table)
	compared, err := Compare(Filters{filter}, profile, All, Same, Limit, table)
	if err != nil || compared.Verdict != Holds || compared.Report != "same\n" || len(compared.Each) != 1 {
		t.Error(compared, err)
	}
}

// A runtime leaves out the entry whose answer is the default's; the stub answers from 1 on.
func TestReadings(t *testing.T) {
	text := []byte(`{"defaultAction": "SCMP_ACT_ERRNO", "syscalls": [{"names": ["write"], "action": "SCMP_ACT_ALLOW"},
		{"names": ["write"], "action": "SCMP_ACT_ERRNO"}]}`)
	_, err := Profile{Text: text}.Ask(write, table)
	var fault *Fault
	is(t, errors.As(err, &fault) && fault.Kind == KindConflict, true)
	for _, reading := range []Reading{Runc, Crun} {
		answer, err := Profile{Text: text, Reading: reading}.Ask(write, table)
		is(t, []any{answer, err}, []any{ProfileAnswer{retAllow, ByEntry, 0, LeftOut{}}, nil})
		stubbed := Table{X86_64, table.Text, true, 1}
		answer, err = Profile{Text: text, Reading: reading}.Ask(write, stubbed)
		is(t, []any{answer, err}, []any{ProfileAnswer{0x50026, ByStub, 0, LeftOut{}}, nil})
	}
	trap := []byte(`{"defaultAction": "SCMP_ACT_TRAP", "defaultErrnoRet": 3}`)
	answer, err := Profile{Text: trap, Reading: Sandbox}.Ask(write, table)
	is(t, []any{answer, err}, []any{ProfileAnswer{0x30003, ByDefault, 0, LeftOut{}}, nil})
}

func TestArchitectures(t *testing.T) {
	p := Profile{Text: []byte(`{"defaultAction": "SCMP_ACT_ERRNO", "architectures": ["SCMP_ARCH_X86_64", "SCMP_ARCH_X86"],
		"syscalls": [{"names": ["read"], "action": "SCMP_ACT_ALLOW"}]}`)}
	tables := []Table{{Architecture: X86_64, Text: []byte("read 0\n")}, {Architecture: X86, Text: []byte("read 3\n")}}
	const i386 = 0x40000003
	for _, row := range []struct {
		call   Call
		answer Answer
		why    Reason
	}{{read, retAllow, ByEntry}, {Call{Nr: 3, Arch: i386}, retAllow, ByEntry},
		{Call{Nr: 0, Arch: i386}, retEperm, ByDefault},
		{Call{Nr: 1 << 30, Arch: x86_64}, retKillProcess, Foreign}} {
		answer, err := p.Ask(row.call, tables...)
		is(t, []any{answer, err}, []any{ProfileAnswer{row.answer, row.why, 0, LeftOut{}}, nil})
	}
	filter, _, _ := p.Compile(tables...)
	compared, err := Compare(Filters{filter}, p, EachArchitecture, Same, Limit, tables...)
	if err != nil || compared.Verdict != Holds || len(compared.Each) != 2 || compared.Each[1].Architecture != X86 {
		t.Error(compared, err)
	}
	filter, out, _ := p.Compile(tables[0])
	is(t, out, LeftOut{1, 0})
	compared, err = Compare(Filters{filter}, p, EachArchitecture, Same, Limit, tables...)
	if err != nil || compared.Verdict != Fails || compared.Call.Arch != i386 {
		t.Error(compared, err)
	}
	// an architecture that is listed has no table; i386, which isn't listed, is open
	open := Profile{Text: []byte(`{"defaultAction": "SCMP_ACT_ALLOW"}`)}
	compared, err = Compare(Filters{allow}, open, EachArchitecture, Same, Limit, tables[0])
	is(t, []any{compared.Verdict, err}, []any{Holds, nil})
	whole, _, _ := p.Compile(tables...)
	for _, row := range []struct {
		filter   []byte
		profile  Profile
		tables   []Table
		isProved bool
	}{{whole, p, tables, true}, {filter, p, tables[:1], false}, {allow, open, tables[:1], false}} {
		isProved, err := IsProved(Filters{row.filter}, row.profile, row.tables...)
		is(t, []any{isProved, err}, []any{row.isProved, nil})
	}
	arm := Table{Architecture: Arm, Text: []byte("read 3\n")}
	_, _, err = p.Compile(tables[0], arm)
	refused(t, err, SourceProfile, KindNotListed, 1)
	p.SkipUnlisted = true
	_, err = p.Ask(read, OwnTables()...)
	is(t, err, nil)
	for _, wrong := range [][]Table{{tables[0], tables[0]}, nil} {
		_, _, err = p.Compile(wrong...)
		is(t, err, ErrWrongArgument)
	}
}

func TestComparisons(t *testing.T) {
	both := Filters{allow, deny}
	for _, row := range []struct {
		filter   []byte
		right    Side
		scope    Scope
		relation Relation
		limit    uint64
		verdict  Verdict
	}{
		{allow, profile, OneCall(X86_64, 0), Same, Limit, Holds}, {allow, profile, EachArchitecture, NoLess, Limit, Holds},
		{allow, profile, Numbers(X86_64, 1, 1), NoMore, Limit, Fails}, {allow, profile, All, Same, 0, Unfinished},
		{deny, both, All, SameDisposition, Limit, Holds},
	} {
		compared, err := Compare(Filters{row.filter}, row.right, row.scope, row.relation, row.limit, table)
		if err != nil || compared.Verdict != row.verdict {
			t.Error(row, compared, err)
		} else if row.verdict == Fails {
			is(t, []any{compared.Call.Nr, compared.Left, compared.Right}, []any{uint32(1), Answer(retAllow), Answer(retEperm)})
		}
	}
	compared, err := Compare(Filters{unknown}, profile, OneCall(X86_64, 1), Same, Limit, table)
	is(t, []any{compared.Verdict, compared.Side, compared.At, err}, []any{Undecided, uint32(1), uint64(7), nil})
	compared, err = Compare(Filters{allow}, profile, EachCall, Same, Limit, table)
	if err != nil || len(compared.Each) != 2 || compared.Each[0].Verdict != Holds || compared.Each[1].Verdict != Fails ||
		compared.Each[1].Nr != 1 || compared.Verdict != Fails {
		t.Error(compared, err)
	}
	_, err = Compare(Filters{}, Filters{{6}}, All, Same, 1)
	refused(t, err, SourceBeside, KindTruncated, 0)
	for _, right := range []Side{profile, nil} {
		_, err = Compare(Filters{}, right, All, 9, 1, table)
		is(t, err, ErrWrongArgument)
	}
}

func TestAnswers(t *testing.T) {
	regions, isFinished, out, err := Answers(profile, Numbers(X86_64, 0, 1), Limit, table)
	if err != nil || !isFinished || len(regions) != 2 || out != (LeftOut{}) {
		t.Fatal(regions, isFinished, out, err)
	}
	for _, region := range regions {
		wanted, _ := profile.Ask(*region.Example, table)
		is(t, []any{region.Answer, region.By, region.IsExact, len(region.Facts) > 0},
			[]any{wanted.Answer, wanted.Reason, true, true})
	}
	regions, isFinished, _, err = Answers(profile, All, 0, table)
	is(t, []any{len(regions), isFinished, err}, []any{0, false, nil})
}

// There is no memory for a copy of this filter, which has more bytes than a process has addresses. It isn't read.
func TestNoMemory(t *testing.T) {
	huge := unsafe.Slice(&allow[0], 1<<47)
	_, decided := Decide([][]byte{huge}, read)
	_, compared := Compare(Filters{huge}, profile, All, Same, Limit)
	_, _, compiled := profile.Compile(Table{Architecture: X86_64, Text: huge})
	is(t, []error{decided, compared, compiled}, []error{ErrNoMemory, ErrNoMemory, ErrNoMemory})
}

func TestNames(t *testing.T) {
	for _, row := range []struct {
		name   string
		number interface{ String() string }
	}{
		{"ERRNO 1", Answer(retEperm)}, {"UNNAMED 0x7ffe0001", Answer(0x7ffe0001)}, {"ALLOW", Answer(retAllow).Action()},
		{"fails", Fails}, {"Verdict(0)", Verdict(0)}, {"Verdict(9)", Verdict(9)}, {"same", Same}, {"no less", NoLess},
		{"entry", ByEntry}, {"stub", ByStub}, {"sandbox", Sandbox}, {"arm", Arm}, {"loongarch64", Loongarch64},
		{"Architecture(99)", Architecture(99)}, {"NotListed", KindNotListed},
		{"Kind(99)", Kind(99)}, {"compare", SourceCompare},
	} {
		is(t, row.number.String(), row.name)
	}
	text := (&Fault{SourceProfile, KindConflict, [3]uint64{308, 1, 10}}).Error()
	if !strings.HasPrefix(text, "scf: fault profile Conflict number 308 first 1 second 10\nTwo entries, ") {
		t.Error(text)
	}
	is(t, []uint32{X32.Audit(), Mipsel64n32.Audit(), Architecture(99).Audit()}, []uint32{0xc000003e, 0xe0000008, 0})
}

func TestTables(t *testing.T) {
	for architecture, line := range map[Architecture]string{X86_64: "read 0", X86: "read 3", X32: "read 0",
		Aarch64: "read 63", Arm: "read 3", Riscv64: "read 63", Ppc64le: "read 3", Mipsel: "read 4003",
		Mipsel64: "read 5000", Mipsel64n32: "read 6000", Loongarch64: "read 63"} {
		text := string(SyscallTable(architecture))
		if !strings.HasPrefix(text, "# ") || !strings.Contains(text, "\n"+line+"\n") {
			t.Error(architecture, text)
		}
	}
	is(t, SyscallTable(99), []byte(nil))
}

// The thread that has the filter ends with the goroutine that is locked to it.
func TestLoad(t *testing.T) {
	_, err := Load([]byte{6}, 0)
	is(t, err, syscall.EINVAL)
	filter, _ := Assemble("ld [0]\njeq #110, 0, 1\nret #0x50001\nret #0x7fff0000\n") // getppid
	done := make(chan error)
	go func() {
		runtime.LockOSThread()
		_, err := Load(filter, 0)
		if parent, _, _ := syscall.RawSyscall(syscall.SYS_GETPPID, 0, 0, 0); err == nil && parent != ^uintptr(0) {
			err = errors.New("the filter wasn't loaded")
		}
		done <- err
	}()
	is(t, <-done, error(nil))
}

func TestGoroutines(t *testing.T) {
	var all sync.WaitGroup
	for i := 0; i < 16; i++ {
		all.Add(1)
		go func() {
			defer all.Done()
			if filter, _, err := profile.Compile(table); err != nil || len(filter)%8 != 0 {
				t.Error(err)
			}
		}()
	}
	all.Wait()
}
