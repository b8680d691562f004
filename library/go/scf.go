// Package scf checks, runs, compiles and compares seccomp filters in this process, by libscf.
//
// What the library answers is proved (docs/TRUST.md of scf), but for SyscallTable and Load. Each function is one of its
// arguments, and may be called from any number of goroutines. Without cgo there are the same names: each call that can
// fail returns ErrNoCgo.
package scf

import (
	"errors"
	"fmt"
	"strings"
)

// Limit is the most steps that scf takes without --limit.
const Limit = 1000000

// NoEntry stands in place of an entry of a profile, for what is outside of them.
const NoEntry = ^uint64(0)

// KeepPrivileges is a flag of Load, which then leaves no_new_privs as it is.
const KeepPrivileges = 0x80000000

// Call is what a filter sees of a syscall: the kernel's struct seccomp_data. Arch is that of Architecture.Audit.
type Call struct {
	Nr, Arch uint32
	IP       uint64
	Args     [6]uint64
}

// A Side is what is compared: a Profile, or Filters.
type Side interface {
	parts() (filters [][]byte, profile *Profile)
}

// Profile is an OCI profile, JSON, and how it is read. With SkipUnlisted tables of architectures that it doesn't list
// are skipped; else they are refused.
type Profile struct {
	Text         []byte
	Reading      Reading
	SkipUnlisted bool
}

// Filters is a stack of filters, the oldest first.
type Filters [][]byte

func (p Profile) parts() ([][]byte, *Profile) { return nil, &p }
func (f Filters) parts() ([][]byte, *Profile) { return f, nil }

// Table is a syscall table, and the architecture whose syscalls it numbers. With HasStub runc's stub answers ENOSYS to
// the numbers from Stub on, as calls have them.
type Table struct {
	Architecture Architecture
	Text         []byte
	HasStub      bool
	Stub         uint32
}

// Reading is how a profile is read: by its words, as a runtime reads it that hands it to libseccomp, or, as Sandbox, by
// its words with errnoRet beside SCMP_ACT_TRAP as its data.
type Reading uint32

const (
	Strict Reading = iota
	Runc
	Crun
	Sandbox
)

// Architecture says whose syscalls a table numbers.
type Architecture uint32

const (
	X86_64 Architecture = iota + 1
	X86                 // i386
	X32                 // its table has its numbers without the bit 0x40000000
	Aarch64
	Arm
	Riscv64
	Ppc64le
	Mipsel
	Mipsel64
	Mipsel64n32
	Loongarch64
)

// By the numbers of architectures, from 1 on: their names, and AUDIT_ARCH_.. of linux/audit.h.
var architectures = [...]struct {
	name  string
	audit uint32
}{
	{}, {"x86_64", 0xc000003e}, {"x86", 0x40000003}, {"x32", 0xc000003e}, {"aarch64", 0xc00000b7}, {"arm", 0x40000028},
	{"riscv64", 0xc00000f3}, {"ppc64le", 0xc0000015}, {"mipsel", 0x40000008}, {"mipsel64", 0xc0000008},
	{"mipsel64n32", 0xe0000008}, {"loongarch64", 0xc0000102},
}

// Audit is the Arch of its calls, AUDIT_ARCH_.. of linux/audit.h; 0 of a number that is none.
func (a Architecture) Audit() uint32 {
	if int(a) < len(architectures) {
		return architectures[a].audit
	}
	return 0
}

// Scope says which calls are compared.
type Scope struct{ scope, architecture, first, last uint32 }

var (
	All              = Scope{scope: 0} // also of architectures that have no table
	EachArchitecture = Scope{scope: 2} // of each that has a table, one after another
	EachCall         = Scope{scope: 3} // of each syscall of each table, one after another
)

// Numbers has the calls of an architecture with a number of a range, as calls have it, both ends included.
func Numbers(architecture Architecture, first, last uint32) Scope {
	return Scope{1, uint32(architecture), first, last}
}

// OneCall has those with one number.
func OneCall(architecture Architecture, nr uint32) Scope { return Numbers(architecture, nr, nr) }

// X86_64ABIs has the calls that a program of x86-64 can make: of x86-64, i386 and x32, but for the number -1, which is
// no syscall.
var X86_64ABIs = [...]Scope{Numbers(X86_64, 0, 0x3fffffff), Numbers(X86, 0, 0xfffffffe),
	Numbers(X32, 0x40000000, 0xfffffffe)}

// Relation is what is to hold of the left and the right side's answers. Denied < delegated < allowed.
type Relation uint32

const (
	Same            Relation = iota
	NoMore                   // the left side's is no more permissive
	NoLess                   // the left side's is no less permissive
	SameDisposition          // both deny, delegate or allow
)

// Verdict is what a comparison comes to: Holds is proved of every call, Fails is shown by one.
type Verdict uint32

const (
	Holds Verdict = iota + 1
	Fails
	Undecided  // not known; a run of a filter can end at an instruction
	Unfinished // a limit was reached
)

// Finding is what a comparison comes to. Where it Fails, it has a call and both answers; where it is Undecided, the
// index of an instruction of a filter of side 1 or 2.
type Finding struct {
	Verdict     Verdict
	Call        Call
	Left, Right Answer
	Side        uint32
	At          uint64
}

// LeftOut is how much of a profile isn't judged: the architectures that it lists without a table, and the names that no
// table has, each occurrence.
type LeftOut struct{ NotLookedAt, Skipped uint64 }

// RecordsFinding is that on the calls of one architecture (0 of all), or of one syscall by its number as calls have it.
type RecordsFinding struct {
	Architecture Architecture
	Nr           uint32
	Finding
}

// Comparison is the finding on all, of several the first that fails, else the first that doesn't hold; how much of
// either profile isn't judged; and the finding on each architecture or syscall.
type Comparison struct {
	Finding
	LeftOut, RightOut LeftOut
	Each              []RecordsFinding
	Report            string // what scf compare prints of the finding on all
}

// IsProved says whether filters are proved to be a profile's: they answer each call of the architectures that it lists
// as it says, each of these has a table, and they allow no more than it of X86_64ABIs.
func IsProved(filters Filters, profile Profile, tables ...Table) (isProved bool, err error) {
	holds := func(scope Scope, relation Relation) {
		compared, failed := Compare(filters, profile, scope, relation, Limit, tables...)
		isProved, err = compared.Verdict == Holds && compared.RightOut.NotLookedAt == 0, failed
	}
	holds(EachArchitecture, Same)
	for i := 0; i < len(X86_64ABIs) && isProved; i++ {
		holds(X86_64ABIs[i], NoMore)
	}
	return isProved, err
}

// Region is calls that a side answers alike, and one of them. By is the reason of a profile, with its entry, and else
// 0: then the filter and the instruction of it answer. Calls of one that isn't exact may lie in others, too.
type Region struct {
	Answer        Answer
	IsKnown       bool
	IsExact       bool
	By            Reason
	Entry         uint32
	Filter, Index uint64
	Example       *Call
	Facts         []Fact
}

// Fact is what is known of a word of calls (0 Nr, 1 Arch, 4 and 5 the first argument ..): that it lies in one of such
// intervals from Low to High, or that it has, or lacks, the bits High under the mask Low.
type Fact struct {
	Word      uint32
	Kind      FactKind
	Low, High uint32
}

// FactKind says what a Fact says.
type FactKind uint32

const (
	Within FactKind = iota + 1
	HasBits
	LacksBits
)

// ProfileAnswer is a profile's answer to a call, why it is this, with ByEntry the index of the entry, and how much of
// the profile isn't judged.
type ProfileAnswer struct {
	Answer  Answer
	Reason  Reason
	Entry   uint32
	LeftOut LeftOut
}

// Decision is what a stack of filters answers, and the indices of the filter that answers, 0 the oldest, and of its
// instruction. Without HasFilter there is no filter, and the call is allowed.
type Decision struct {
	Answer        Answer
	HasFilter     bool
	Filter, Index uint64
}

// Reason says why a profile answers a call as it does.
type Reason uint32

const (
	ByDefault Reason = iota + 1
	ByEntry
	Foreign // the call is of an architecture that has no table
	ByStub  // by runc's stub
)

// Answer is what a filter answers: an action and 16 bits of data. Its text is as scf prints it.
type Answer uint32

// Action is what an answer does: SECCOMP_RET_.. of linux/seccomp.h.
type Action uint32

const (
	ActionKillProcess Action = 0x80000000
	ActionKillThread  Action = 0
	ActionTrap        Action = 0x00030000
	ActionErrno       Action = 0x00050000
	ActionUserNotif   Action = 0x7fc00000
	ActionTrace       Action = 0x7ff00000
	ActionLog         Action = 0x7ffc0000
	ActionAllow       Action = 0x7fff0000
)

// Action is the action of an answer.
func (a Answer) Action() Action { return Action(a & 0xffff0000) }

// Data is the error number of Errno, the message of Trace, and so on.
func (a Answer) Data() uint16 { return uint16(a) }

var actions = map[Action]string{ActionKillProcess: "KILL_PROCESS", ActionKillThread: "KILL_THREAD", ActionTrap: "TRAP",
	ActionErrno: "ERRNO", ActionUserNotif: "USER_NOTIF", ActionTrace: "TRACE", ActionLog: "LOG", ActionAllow: "ALLOW"}

func (a Action) String() string {
	if name, has := actions[a]; has {
		return name
	}
	return fmt.Sprintf("Action(0x%08x)", uint32(a))
}

func (a Answer) String() string {
	if name, has := actions[a.Action()]; has {
		return fmt.Sprintf("%s %d", name, a.Data())
	}
	return fmt.Sprintf("UNNAMED 0x%08x", uint32(a))
}

// nameOf is the name of a number, the first of which is `from`; of a number of a later library its type and itself.
func nameOf(kind string, number, from uint32, names ...string) string {
	if number >= from && number-from < uint32(len(names)) {
		return names[number-from]
	}
	return fmt.Sprintf("%s(%d)", kind, number)
}

func (a Architecture) String() string {
	if a != 0 && int(a) < len(architectures) {
		return architectures[a].name
	}
	return nameOf("Architecture", uint32(a), 0)
}

func (r Relation) String() string {
	return nameOf("Relation", uint32(r), 0, "same", "no more", "no less", "same disposition")
}

func (r Reading) String() string {
	return nameOf("Reading", uint32(r), 0, "strict", "runc", "crun", "sandbox")
}

func (v Verdict) String() string {
	return nameOf("Verdict", uint32(v), 1, "holds", "fails", "undecided", "unfinished")
}

func (r Reason) String() string {
	return nameOf("Reason", uint32(r), 1, "default", "entry", "foreign", "stub")
}

// Fault says which input isn't accepted, why, and where: the numbers are those of the line that docs/FAULTS.md has for
// it. It is an error, and so is its Kind: errors.Is(err, scf.KindConflict) finds it.
type Fault struct {
	Source  Source
	Kind    Kind
	Numbers [3]uint64
}

// Error is the line that scf prints, and a line of what that means.
func (f *Fault) Error() string { return "scf: " + strings.TrimRight(f.text(), "\n") }

// Unwrap is the kind.
func (f *Fault) Unwrap() error { return f.Kind }

// Source says which input isn't accepted.
type Source uint32

const (
	SourceFilter Source = iota + 1
	SourceBeside
	SourceText
	SourceTable
	SourceProfile
	SourceCompile
	SourceStack
	SourceCompare
)

func (s Source) String() string {
	return nameOf("Source", uint32(s), 1, "filter", "beside", "text", "table", "profile", "compile", "stack", "compare")
}

// Kind says why an input isn't accepted, by the names of docs/FAULTS.md.
type Kind uint32

const (
	KindMemory Kind = iota + 1
	KindRead
	KindTruncated
	KindTooLong
	KindEmpty
	KindCode
	KindLoad
	KindScratch
	KindDivisor
	KindShift
	KindJump
	KindLastNotReturn
	KindUnset
	KindNotAscii
	KindMnemonic
	KindOperand
	KindNumberRange
	KindLabel
	KindJumpTooFar
	KindForm
	KindName
	KindNumber
	KindRepeated
	KindJson
	KindMissing
	KindKind
	KindAction
	KindOperator
	KindEmptyNames
	KindIndex
	KindRepeatedIndex
	KindErrno
	KindErrnoRange
	KindNoX8664
	KindEngineForm
	KindTooMany
	KindConflict
	KindTooLarge
	KindNotListed
)

var kinds = strings.Fields(`Memory Read Truncated TooLong Empty Code Load Scratch Divisor Shift Jump LastNotReturn Unset
	NotAscii Mnemonic Operand NumberRange Label JumpTooFar Form Name Number Repeated Json Missing Kind Action Operator
	EmptyNames Index RepeatedIndex Errno ErrnoRange NoX8664 EngineForm TooMany Conflict TooLarge NotListed`)

func (k Kind) String() string { return nameOf("Kind", uint32(k), 1, kinds...) }
func (k Kind) Error() string  { return k.String() }

var (
	// ErrNoMemory says that malloc failed.
	ErrNoMemory = errors.New("scf: out of memory")
	// ErrWrongArgument says that a number has no meaning, that there is no table, or two of one architecture, or that a
	// scope has no call.
	ErrWrongArgument = errors.New("scf: a number has no meaning, or there is no table, one twice, or no call")
	// ErrNoCgo says that the program was built without cgo, and so without libscf.
	ErrNoCgo = errors.New("scf: built without cgo")
)
