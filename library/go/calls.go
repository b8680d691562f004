//go:build cgo

package scf

/*
#cgo pkg-config: scf
#include <scf.h>
#include <stdlib.h>
*/
import "C"

import (
	"syscall"
	"unsafe"
)

// invoke makes a call of the library; an error says why it failed.
func invoke(call func(fault *C.struct_scf_fault) C.uint32_t) error {
	var f C.struct_scf_fault
	switch call(&f) {
	case C.SCF_OK:
		return nil
	case C.SCF_NO_MEMORY:
		return ErrNoMemory
	case C.SCF_WRONG_ARGUMENT:
		return ErrWrongArgument
	}
	return &Fault{Source(f.source), Kind(f.kind), *(*[3]uint64)(unsafe.Pointer(&f.numbers))}
}

func (f *Fault) text() string {
	fault := C.struct_scf_fault{source: C.uint32_t(f.Source), kind: C.uint32_t(f.Kind)}
	*(*[3]uint64)(unsafe.Pointer(&fault.numbers)) = f.Numbers
	text := make([]byte, 1024)
	var needed C.size_t
	C.scf_fault_text(&fault, (*C.char)(unsafe.Pointer(&text[0])), size(text), &needed)
	return string(text[:needed])
}

func ptr(b []byte) *C.uint8_t {
	if len(b) == 0 {
		return nil
	}
	return (*C.uint8_t)(unsafe.Pointer(&b[0]))
}

func size(b []byte) C.size_t { return C.size_t(len(b)) }

func callPtr(call *Call) *C.struct_scf_call { return (*C.struct_scf_call)(unsafe.Pointer(call)) }

// output is the list that a call hands out: it gets room, and the address of the length needed.
func output(room int, call func(list []byte, needed *C.size_t, f *C.struct_scf_fault) C.uint32_t) ([]byte, error) {
	for {
		list := make([]byte, room)
		var needed C.size_t
		err := invoke(func(fault *C.struct_scf_fault) C.uint32_t { return call(list, &needed, fault) })
		if err != nil {
			return nil, err
		}
		if int(needed) <= room {
			return list[:needed], nil
		}
		room = int(needed)
	}
}

// copyToC copies texts to C's memory, which free gives back: a list in Go's may not be handed to C, since it holds
// pointers to Go's memory.
func copyToC(texts [][]byte) (list []C.struct_scf_bytes, free func(), err error) {
	lists, all := C.sizeof_struct_scf_bytes*len(texts), 1
	for _, text := range texts {
		all += len(text)
	}
	block := C.calloc(1, C.size_t(lists+all))
	if block == nil {
		return nil, nil, ErrNoMemory
	}
	list = unsafe.Slice((*C.struct_scf_bytes)(block), len(texts))
	room := unsafe.Slice((*byte)(unsafe.Add(block, lists)), all)
	for i, text := range texts {
		list[i] = C.struct_scf_bytes{at: ptr(room), len: size(text)}
		room = room[copy(room, text):]
	}
	return list, func() { C.free(block) }, nil
}

// Version is the version of the library; without cgo 0.
func Version() (major, minor, patch uint32) {
	v := uint32(C.scf_version())
	return v >> 16, v >> 8 & 0xff, v & 0xff
}

// Check returns the number of instructions of a filter that the kernel accepts.
func Check(filter []byte) (int, error) {
	var count C.size_t
	err := invoke(func(f *C.struct_scf_fault) C.uint32_t { return C.scf_check(ptr(filter), size(filter), &count, f) })
	return int(count), err
}

// Run returns a filter's answer to a call, and how many instructions it executed.
func Run(filter []byte, call Call) (answer Answer, steps int, err error) {
	var a, s C.uint32_t
	err = invoke(func(f *C.struct_scf_fault) C.uint32_t {
		return C.scf_run(ptr(filter), size(filter), callPtr(&call), &a, &s, f)
	})
	return Answer(a), int(s), err
}

// Trace returns a filter's answer to a call, and the indices of the instructions that it executed.
func Trace(filter []byte, call Call) (answer Answer, path []int, err error) {
	var a C.uint32_t
	var needed C.size_t
	room := make([]C.size_t, 4096)
	err = invoke(func(f *C.struct_scf_fault) C.uint32_t {
		return C.scf_trace(ptr(filter), size(filter), callPtr(&call), &a, &room[0], C.size_t(len(room)), &needed, f)
	})
	for _, index := range room[:needed] {
		path = append(path, int(index))
	}
	return Answer(a), path, err
}

// List returns the listing of a filter, which isn't checked.
func List(filter []byte) (string, error) {
	text, err := output(1<<16, func(list []byte, needed *C.size_t, f *C.struct_scf_fault) C.uint32_t {
		return C.scf_list(ptr(filter), size(filter), ptr(list), size(list), needed, f)
	})
	return string(text), err
}

// Assemble returns the filter that a text spells. It isn't checked.
func Assemble(text string) ([]byte, error) {
	source := []byte(text)
	return output(1<<15, func(list []byte, needed *C.size_t, f *C.struct_scf_fault) C.uint32_t {
		return C.scf_assemble(ptr(source), size(source), ptr(list), size(list), needed, f)
	})
}

// Decide returns the answer of a stack of filters, the oldest first, to a call, and the instruction that gives it.
func Decide(filters [][]byte, call Call) (Decision, error) {
	// with an element more, so that there is a first
	list, free, err := copyToC(append(filters[:len(filters):len(filters)], nil))
	if err != nil {
		return Decision{}, err
	}
	defer free()
	var d C.struct_scf_decision
	err = invoke(func(f *C.struct_scf_fault) C.uint32_t {
		return C.scf_decide(&list[0], C.size_t(len(filters)), callPtr(&call), &d, f)
	})
	return Decision{Answer(d.answer), d.has_filter != 0, uint64(d.filter), uint64(d.index)}, err
}

func (p *Profile) inC(text C.struct_scf_bytes) (own C.struct_scf_profile) {
	own.text, own.reading = text, C.uint32_t(p.Reading)
	if p.SkipUnlisted {
		own.flags = C.SCF_SKIP_UNLISTED
	}
	return own
}

// tablesOf are the tables with these texts, in C's memory, and an element more, so that there is a first.
func tablesOf(tables []Table, texts []C.struct_scf_bytes) []C.struct_scf_table {
	list := make([]C.struct_scf_table, len(tables)+1)
	for i, table := range tables {
		list[i] = C.struct_scf_table{bytes: texts[i], architecture: C.uint32_t(table.Architecture)}
		if table.HasStub {
			list[i].has_stub, list[i].stub = 1, C.uint32_t(table.Stub)
		}
	}
	return list
}

// inputs are sides and tables in C's memory.
type inputs struct {
	sides  []C.struct_scf_side
	tables []C.struct_scf_table
	count  C.size_t
	free   func()
}

func copyInputs(tables []Table, sides ...Side) (*inputs, error) {
	var texts [][]byte
	for _, table := range tables {
		texts = append(texts, table.Text)
	}
	for _, side := range sides {
		if side == nil {
			return nil, ErrWrongArgument
		}
		filters, profile := side.parts()
		if profile != nil {
			filters = [][]byte{profile.Text}
		}
		texts = append(texts, filters...)
	}
	list, free, err := copyToC(append(texts, nil))
	if err != nil {
		return nil, err
	}
	in := &inputs{tables: tablesOf(tables, list), count: C.size_t(len(tables)), free: free}
	list = list[len(tables):]
	for _, side := range sides {
		var own C.struct_scf_side
		if filters, profile := side.parts(); profile != nil {
			own.kind, own.profile = C.SCF_PROFILE, profile.inC(list[0])
			list = list[1:]
		} else {
			own.kind, own.filters, own.filters_len = C.SCF_FILTERS, &list[0], C.size_t(len(filters))
			list = list[len(filters):]
		}
		in.sides = append(in.sides, own)
	}
	return in, nil
}

func leftOut(counts *C.struct_scf_left_out) LeftOut {
	return LeftOut{uint64(counts.not_looked_at), uint64(counts.skipped)}
}

// Compile returns a filter that answers every call as the profile does. KILL_PROCESS answers the calls of architectures
// that have no table; LeftOut says how many of them the profile lists.
func (p Profile) Compile(tables ...Table) ([]byte, LeftOut, error) {
	in, err := copyInputs(tables, p)
	if err != nil {
		return nil, LeftOut{}, err
	}
	defer in.free()
	var counts C.struct_scf_left_out
	filter, err := output(1<<15, func(list []byte, needed *C.size_t, f *C.struct_scf_fault) C.uint32_t {
		return C.scf_compile(&in.sides[0].profile, &in.tables[0], in.count, ptr(list), size(list), needed, &counts, f)
	})
	return filter, leftOut(&counts), err
}

// Ask returns the profile's answer to a call, and why: Foreign where the call's architecture has no table.
func (p Profile) Ask(call Call, tables ...Table) (ProfileAnswer, error) {
	in, err := copyInputs(tables, p)
	if err != nil {
		return ProfileAnswer{}, err
	}
	defer in.free()
	var a C.struct_scf_answer
	err = invoke(func(f *C.struct_scf_fault) C.uint32_t {
		return C.scf_ask(&in.sides[0].profile, &in.tables[0], in.count, callPtr(&call), &a, f)
	})
	return ProfileAnswer{Answer(a.answer), Reason(a.reason), uint32(a.entry), leftOut(&a.left_out)}, err
}

func finding(c *C.struct_scf_finding) Finding {
	call := *(*Call)(unsafe.Pointer(&c.call))
	return Finding{Verdict(c.verdict), call, Answer(c.left), Answer(c.right), uint32(c.side), uint64(c.at)}
}

func questionOf(scope Scope, relation Relation, limit, totalLimit uint64) C.struct_scf_question {
	return C.struct_scf_question{scope: C.uint32_t(scope.scope), relation: C.uint32_t(relation),
		architecture: C.uint32_t(scope.architecture), first: C.uint32_t(scope.first), last: C.uint32_t(scope.last),
		limit: C.uint64_t(limit), total_limit: C.uint64_t(totalLimit)}
}

// Compare compares two sides in at most limit steps for each architecture or syscall, and as many as it takes for all
// together. The tables are those of a profile on either side.
func Compare(left, right Side, scope Scope, relation Relation, limit uint64, tables ...Table) (Comparison, error) {
	in, err := copyInputs(tables, left, right)
	if err != nil {
		return Comparison{}, err
	}
	defer in.free()
	question := questionOf(scope, relation, limit, ^uint64(0))
	each := make([]C.struct_scf_records_finding, 8)
	var count C.size_t
	var c C.struct_scf_comparison
	report, err := output(1<<13, func(text []byte, needed *C.size_t, f *C.struct_scf_fault) C.uint32_t {
		for {
			status := C.scf_compare(&in.sides[0], &in.sides[1], &in.tables[0], in.count, &question, &c, &each[0],
				C.size_t(len(each)), &count, ptr(text), size(text), needed, f)
			if int(count) <= len(each) {
				return status
			}
			each = make([]C.struct_scf_records_finding, count)
		}
	})
	compared := Comparison{Finding: finding(&c.finding), LeftOut: leftOut(&c.left), RightOut: leftOut(&c.right),
		Report: string(report)}
	for i := range each[:count] {
		compared.Each = append(compared.Each,
			RecordsFinding{Architecture(each[i].architecture), uint32(each[i].nr), finding(&each[i].finding)})
	}
	return compared, err
}

func region(r *C.struct_scf_region, facts []Fact) Region {
	own := Region{Answer: Answer(r.answer), IsKnown: r.is_known != 0, IsExact: r.is_exact != 0, By: Reason(r.reason),
		Entry: uint32(r.entry), Filter: uint64(r.filter), Index: uint64(r.index), Facts: facts}
	if r.has_example != 0 {
		call := *(*Call)(unsafe.Pointer(&r.example))
		own.Example = &call
	}
	return own
}

// Answers returns all that a side answers to the calls of a scope, by regions, in at most limit steps. If the limit was
// reached it isn't finished, and there is no region.
func Answers(side Side, scope Scope, limit uint64, tables ...Table) (regions []Region, isFinished bool, out LeftOut,
	err error) {
	in, err := copyInputs(tables, side)
	if err != nil {
		return nil, false, out, err
	}
	defer in.free()
	question := questionOf(scope, Same, limit, limit)
	list, facts := make([]C.struct_scf_region, 1024), make([]C.struct_scf_fact, 8192)
	var count, factCount C.size_t
	var listing C.struct_scf_listing
	for {
		err = invoke(func(f *C.struct_scf_fault) C.uint32_t {
			return C.scf_answers(&in.sides[0], &in.tables[0], in.count, &question, &listing, &list[0],
				C.size_t(len(list)), &count, &facts[0], C.size_t(len(facts)), &factCount, f)
		})
		if int(count) <= len(list) && int(factCount) <= len(facts) {
			break
		}
		list, facts = make([]C.struct_scf_region, count), make([]C.struct_scf_fact, factCount)
	}
	allFacts := make([]Fact, factCount)
	for i, fact := range facts[:factCount] {
		allFacts[i] = Fact{uint32(fact.word), FactKind(fact.kind), uint32(fact.low), uint32(fact.high)}
	}
	for i := range list[:count] {
		own := int(list[i].fact_count)
		regions = append(regions, region(&list[i], allFacts[:own:own]))
		allFacts = allFacts[own:]
	}
	return regions, listing.is_finished != 0, leftOut(&listing.left_out), err
}

// OwnTables are scf's own tables of all architectures.
func OwnTables() (tables []Table) {
	for architecture := X86_64; int(architecture) < len(architectures); architecture++ {
		tables = append(tables, Table{Architecture: architecture, Text: SyscallTable(architecture)})
	}
	return tables
}

// String is a call in words, by the names of scf's own tables.
func (call Call) String() string {
	text := make([]byte, 512)
	var needed C.size_t
	C.scf_call_text(callPtr(&call), (*C.char)(unsafe.Pointer(&text[0])), size(text), &needed)
	return string(text[:needed])
}

// SyscallTable is the table that scf has of an architecture, nil of a number that is none. Its first line says of which
// kernel it is.
func SyscallTable(architecture Architecture) []byte {
	var length C.size_t
	table := C.scf_table(C.uint32_t(architecture), &length)
	return append([]byte(nil), unsafe.Slice((*byte)(table), length)...)
}

// Load loads a filter by seccomp(2) for the thread of this goroutine, which has to be locked to it, or with
// SECCOMP_FILTER_FLAG_TSYNC for all threads. The flags are those of linux/seccomp.h, and KeepPrivileges; without that,
// no_new_privs is set. The result is 0, the listener's descriptor, or with TSYNC the id of a thread that can't be
// reached: then no thread gets the filter. An error of the kernel is a syscall.Errno.
func Load(filter []byte, flags uint32) (int, error) {
	result := C.scf_load(ptr(filter), size(filter), C.uint32_t(flags))
	if result < 0 {
		return 0, syscall.Errno(-result)
	}
	return int(result), nil
}
