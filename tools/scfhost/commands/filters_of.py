"""Writes the seccomp filters of a process into a folder: of a running one, as the kernel keeps them, or those that a
program loads.

    scf filters-of [--thread TID] [--force] PID FOLDER
    scf filters-of [--thread TID] [FOLDER] -- PROGRAM [ARGUMENT ..]
    scf filters-of [--thread TID] --log LOG FOLDER

The folder is created if it doesn't exist, and must hold no *.bpf. The filters are written oldest first, as 0.bpf, 1.bpf
and so on (00.bpf if there are more than ten, so that *.bpf lists them in order); each file's name is printed on a line.
Filters belong to threads: all threads of the process are read, and if they don't have the same filters, the tool says
so, with status 2; --thread takes those of one thread. PID may also be a thread's number, and stands for its process.

With a PROGRAM it is run under strace to its end, which needs no rights, with the terminal, input and output as ever;
the filters are those that it and what it starts hand to the kernel, each with what its process had before. Without a
FOLDER it is one here that is called by the program, as bwrap.filters. Processes without filters don't count; if the
others end with different ones, --thread takes those of one, whose number the tool says. A traced program gets no
privileges of set-user-ID, set-group-ID or file capabilities. LOG is what `strace -f -v -o LOG PROGRAM ..` wrote, with
all of seccomp, prctl, clone, clone3, fork and vfork.

Exit status: 0 success; 1 there are none; 2 the threads have different ones; 125 strace isn't installed; 126 PROGRAM
isn't executable; 127 there is none. If the filters of a PROGRAM are written, it is the program's status, or the signal
that ended it.

Examples:

    scf filters-of "$PID" filters
    scf filters-of --thread "$PID" "$PID" filters-of-one
    scf filters-of --log strace.log filters-of-log
"""
import os
import sys
import tempfile

from scftools.base import inputs, output, program
from scftools.cli import words
from scftools.forms import c_arrays, filters, strace, strace_reader
from scftools.forms.filters import Stack, called, threads_text
from scftools.logs import tracing
from .. import processes

TRACING_OPTIONS = ("-f", "-v", "-e", f"trace={strace_reader.TRACED_CALLS}", "-e", "signal=none",
                  "--quiet=attach,personality")


def loaded_in(log, label, thread, hint):
    """The stack that the processes of a log share, or that one thread has; the hint says how to take that."""
    try:
        stacks = strace_reader.stacks_in(strace.log_lines(log, strace_reader.LONGEST_LOAD))
    except c_arrays.NotAnArray as why:
        raise program.ToolError(f"the filters in {label} can't be read: {why}") from why
    if thread is not None:
        stacks = {stack: threads for stack, threads in stacks.items() if str(thread) in threads}
    if not stacks:
        whose = "" if thread is None else f" by {thread}"
        raise program.ToolError(f"no filter is loaded{whose} in {label}", program.NEGATIVE)
    if len(stacks) > 1:
        shares = "".join(f"; {', '.join(threads[:3])}{', ..' * (len(threads) > 3)}: {Stack(stack, False).description}"
                         for stack, threads in stacks.items())
        raise program.ToolError(f"the processes in {label} end with different filters{shares}; {hint} takes those of "
                                "one")
    return Stack(next(iter(stacks)), False)


def of_program(options):
    """Runs the program: the stack that it loads, and its status."""
    with tempfile.TemporaryDirectory(prefix="scf-filters-of-") as folder:
        log = os.path.join(folder, "log")
        status = tracing.run_traced(log, TRACING_OPTIONS, options.traced)
        hint = "its numbers change: `strace -f -v -o LOG` before it writes them, and --log LOG --thread"
        return loaded_in(log, "the program", options.thread, hint), status


def write(named, folder):
    """Writes the filters, over no file, and prints their files' names; none is left where one can't be written. Whoever
    may write beside the folder may replace it meanwhile, so it stays open."""
    written, at = [], os.open(folder, os.O_PATH | os.O_DIRECTORY | os.O_CLOEXEC)
    try:
        for stack in named:
            with open(stack.name, "xb", opener=lambda name, flags: os.open(name, flags, 0o666, dir_fd=at)) as file:
                written.append(stack.name)
                file.write(stack.data)
    except OSError as error:
        for name in written:
            os.unlink(name, dir_fd=at)
        raise OSError(error.errno, error.strerror, os.path.join(folder, stack.name)) from error
    finally:
        os.close(at)
    output.put_lines(os.path.join(folder, name) for name in written)


def of_process(options):
    inspection = processes.read_or_end(lambda: processes.look_at_process(
        processes.Kernel(), options.pid, options.thread, is_forced=options.force))
    (process,) = inspection.names
    program.say(*inspection.notes)
    stack, *others = inspection.stacks
    if others:
        shares = "".join(f"; {threads_text(each.threads[process])}: {each.description}" for each in inspection.stacks)
        raise program.ToolError(f"the threads of process {process} don't have the same filters{shares}; --thread takes "
                                "those of one thread")
    if not stack.filters:
        threads = stack.threads[process]
        who = called(threads[0], process) if len(threads) == 1 else f"process {process}"
        raise program.ToolError(f"{who} has {stack.description}", program.NEGATIVE)
    return stack


def main():
    parser = words.Parser(__doc__, processes.NEEDS)
    parser.value("--thread", "TID", "only this thread of the process")
    parser.value("--log", "LOG", "the filters that this log of strace -f -v shows being loaded")
    parser.add("--force")
    parser.value("places", "[PID] FOLDER",
                 "a process, or a thread of it; a folder, created if it doesn't exist, without *.bpf", nargs="*")
    own_words, traced = tracing.split(sys.argv[1:])
    options = parser.parse_args(own_words)
    options.traced, places = traced, options.places
    is_running = options.log is None and not options.traced
    if options.traced and not places:
        places = [os.path.basename(options.traced[0]) + ".filters"]
    if is_running and any(places[:1]) and not places[0].isdigit():
        tracing.check_separated(parser, places, "filters-of")
    parser.reject((len(places) != 1 + is_running or options.traced and options.log is not None,
                   "give PID FOLDER, [FOLDER] -- PROGRAM, or --log LOG FOLDER"))
    folder = places[-1]
    options.pid = processes.number_in(places[0]) if is_running else None
    options.thread = None if options.thread is None else processes.number_in(options.thread)
    parser.reject((os.path.exists(folder) and not os.path.isdir(folder), f"'{folder}' isn't a folder"),
                  (filters.saved_in(folder), f"the folder '{folder}' already has filters"))
    status = program.SUCCESS
    if options.traced:
        stack, status = of_program(options)
    elif options.log is not None:
        stack = loaded_in(options.log, inputs.label(options.log), options.thread, "--thread")
    else:
        stack = of_process(options)
    os.makedirs(folder, exist_ok=True)
    write(stack.named, folder)
    return tracing.end_as(status)
