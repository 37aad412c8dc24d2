# One program of a list of wrong programs: awk -v crate=FOLDER [-v part=control] [-v into=FOLDER] [-v shape=1] -f
# edit.awk PROGRAM makes its replacements on the files of that crate, or those of its control, whose lines stand two
# blanks further in. It prints each text that does not stand once in its file. Into a folder it writes the files as
# they then are; with shape it prints instead the lines whose shape is then another, by it.

# The shape of a line of code: its operators, brackets and keywords, with one letter for each name, number or
# constant, whichever it is.
function shape_of(line,    out, before, word) {
    if (line ~ /^(ghost )?use /) return "a name brought in"
    sub(/\/\/.*/, "", line)
    gsub(/b?'[^']*'|b?"[^"]*"/, "0", line)
    gsub(/\)(\.[A-Za-z0-9_]+)+/, ")", line)
    out = ""
    while (match(line, /[A-Za-z0-9_]+((::|\.)[A-Za-z0-9_]+)*/)) {
        before = substr(line, 1, RSTART - 1)
        gsub(/[ \t]/, "", before)
        word = substr(line, RSTART, RLENGTH)
        if (word ~ /^(if|else|while|match|return|let|mut|as|leb|ltb|eqb|not)$/) word = " " word " "
        else if (word ~ /(^|:|\.)[A-Z][A-Za-z0-9_]*$/) word = "C"
        else word = "o"
        out = out before word
        line = substr(line, RSTART + RLENGTH)
    }
    gsub(/[ \t]/, "", line)
    out = out line
    # a constant of an enum is a constant, with its value or without, and so is an array of one; `name: value` is the
    # field `name`
    while (gsub(/C\([oC]\)|\(Co\)/, "o", out) || gsub(/C/, "o", out) || gsub(/o:o|\[o;o\]/, "o", out)) continue
    return out
}

# Whether a comparison of one line stands in another the other way round, which is another shape, though the operator
# is the same.
function is_turned(was, is,    pair) {
    gsub(/[^A-Za-z0-9_.=!<>]+/, " ", is)
    while (match(was, /[A-Za-z0-9_.]+ (==|!=|<=|>=|<|>) [A-Za-z0-9_.]+/)) {
        split(substr(was, RSTART, RLENGTH), pair, " ")
        if (index(" " is " ", " " pair[3] " " pair[2] " " pair[1] " ")) return 1
        was = substr(was, RSTART + length(pair[1]))
    }
    return 0
}

part == "control" { if (!sub(/^  /, "")) next }
/^file: / {
    file = substr($0, 7)
    if (!(file in text)) {
        text[file] = ""
        while ((getline line < (crate "/" file)) > 0) text[file] = text[file] line "\n"
        close(crate "/" file)
        found[file] = text[file]
    }
}
/^old: / { old = substr($0, 6) }
/^new:/ {
    pairs++
    times = 0
    for (rest = text[file]; (at = index(rest, old)) > 0; rest = substr(rest, at + length(old))) times++
    if (times != 1) {
        if (!shape) print "its text stands " times " times in " file ": " old
        next
    }
    at = index(text[file], old)
    text[file] = substr(text[file], 1, at - 1) substr($0, 6) substr(text[file], at + length(old))
}
END {
    if (!pairs && !shape) print "it has no old and new text"
    for (file in text) {
        if (into != "") printf "%s", text[file] > (into "/" file)
        if (!shape || file ~ /^proofs\//) continue
        n = split(found[file], was, "\n")
        split(text[file], is, "\n")
        for (i = 1; i <= n; i++) {
            if (was[i] == is[i]) continue
            if (shape_of(was[i]) != shape_of(is[i])) print file ":" i ": " shape_of(is[i])
            else if (is_turned(was[i], is[i])) print file ":" i ": a comparison turned round"
        }
    }
}
