//go:build !cgo

package scf

func Version() (major, minor, patch uint32)               { return }
func Check([]byte) (int, error)                           { return 0, ErrNoCgo }
func Run([]byte, Call) (Answer, int, error)               { return 0, 0, ErrNoCgo }
func Trace([]byte, Call) (Answer, []int, error)           { return 0, nil, ErrNoCgo }
func List([]byte) (string, error)                         { return "", ErrNoCgo }
func Assemble(string) ([]byte, error)                     { return nil, ErrNoCgo }
func Decide([][]byte, Call) (Decision, error)             { return Decision{}, ErrNoCgo }
func SyscallTable(Architecture) []byte                    { return nil }
func Load([]byte, uint32) (int, error)                    { return 0, ErrNoCgo }
func (f *Fault) text() string                             { return f.Kind.String() }
func (call Call) String() string                          { return "a call" }
func OwnTables() []Table                                  { return nil }
func (Profile) Compile(...Table) ([]byte, LeftOut, error) { return nil, LeftOut{}, ErrNoCgo }
func (Profile) Ask(Call, ...Table) (ProfileAnswer, error) { return ProfileAnswer{}, ErrNoCgo }

func Compare(Side, Side, Scope, Relation, uint64, ...Table) (Comparison, error) {
	return Comparison{}, ErrNoCgo
}

func Answers(Side, Scope, uint64, ...Table) ([]Region, bool, LeftOut, error) {
	return nil, false, LeftOut{}, ErrNoCgo
}
