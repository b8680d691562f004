"""The tools on files: a package for each room, a module for each subject, and only Python's standard library.

A program tools/NAME has launch.py start the module commands/NAME.py: its docstring is the tool's manual, it parses the
command line, and it combines modules of the other packages. Each package uses only those before it: base, model, ask,
cli, forms, report, lint, logs, commands. The first line of a module says what it has:

    head -n 1 tools/scftools/*/*.py

One word for one thing. A *plain* filter or profile is what the theorem calls so (docs/TRUST.md). A
*resolved* profile is what an engine makes of its own profile for one container, without `includes`, `excludes` and the
like. *Native* syscalls are those of x86-64 with numbers below 0x40000000; all others are *foreign*, of another ABI. A
syscall *differs* if the filters answer it differently than the profile. A name in a profile is *skipped* if the table
doesn't have it.
"""
