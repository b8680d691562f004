# Turns docs/FAULTS.md into the rows of fault_text.c: of each fault of the library its source and its kind, by their
# constants of scf.h and by their names, the names of its numbers, with [entry] for an entry that may be missing, and
# the sentence below its line. A line may have several sources, `fault filter|beside Empty`.

# The constant of a name: NoX8664 is NO_X8664.
function constant(name) {
    while (match(name, /[a-z][A-Z]/)) name = substr(name, 1, RSTART) "_" substr(name, RSTART + 1)
    return toupper(name)
}

/^- `fault / {
    gsub(/`/, "")
    words = split($0, word, " ")
    numbers = ""
    for (i = 5; i <= words; i += 2)
        numbers = numbers (numbers == "" ? "" : " ") word[i]
    sub(/^\[entry$/, "[entry]", numbers)
    getline meaning
    sub(/^ +/, "", meaning)
    gsub(/`/, "", meaning)
    gsub(/["\\]/, "\\\\&", meaning)
    count = split(word[3], sources, "|")
    for (i = 1; i <= count; i++)
        if (sources[i] !~ /^(input|bundle|answers|number|command)$/)
            printf "{SCF_SOURCE_%s, SCF_KIND_%s, \"%s\", \"%s\", \"%s\", \"%s\"},\n", constant(sources[i]), \
                constant(word[4]), sources[i], word[4], numbers, meaning
}
