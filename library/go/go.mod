// A placeholder for where scf will be: a program that imports it has
// `replace example.org/scf/library/go => DIR` in its own go.mod, where DIR is this folder.
module example.org/scf/library/go

go 1.19
