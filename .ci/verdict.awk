# What 'rt must-fail' said of the wrong programs of a crate, beside what it had to say: awk -v name=CRATE -v
# crate=FOLDER -v seconds=N -v tally=FILE -f verdict.awk NEEDS LOG. NEEDS has a line for each, its label and its need
# with a tab between them, where the need of a control is 'proved'. It prints those that came out otherwise, and a
# line of how many did not; the tally gets three numbers: those refused as they must be, the controls proved, and
# those not so.

# The function that holds a line of a file of src/, by its path in the crate.
# What a function as a whole owes is told at the line of its attribute where it has one.
function function_at(file, row,    path, module, type, found, line, word) {
    path = file
    sub(/^src\//, "", path)
    sub(/\.rt$/, "", path)
    gsub(/\//, "::", path)
    module = path ~ /^(lib|main)$/ ? "" : path "::"
    while ((row-- > 0 || line ~ /^ *#\[/) && (getline line < (crate "/" file)) > 0) {
        if (line ~ /^}/) type = ""
        if (line ~ /^impl[ <]/) {
            type = line
            sub(/ *\{.*/, "", type)
            sub(/.* /, "", type)
            sub(/<.*/, "", type)
            type = type "::"
        }
        if (match(line, /^ *(pub(\([a-z]*\))? )?(const )?fn [A-Za-z0-9_]+/)) {
            word = substr(line, RSTART, RLENGTH)
            sub(/.* /, "", word)
            found = module type word
        }
    }
    close(crate "/" file)
    return found
}

# Where a check failed, from the line by which rt tells it: a function (or a file of laws) and the goal there; or
# 'no refusal: ' and that line. A function's goal that has no answer is told by the place in the code that owes it;
# where a search found no proof of it, it counts only if values are known at which it is false.
function need_in(told,    rest, place, at, false_there) {
    false_there = told ~ /the facts known there allow values at which this goal is false/
    if (match(told, /^note: src\/[^:]*:[0-9]+:[0-9]+: it is not proved that .*\(`[^`]*`\)/) ||
        false_there && match(told, /^note: src\/[^:]*:[0-9]+:[0-9]+: `search` found no proof \(`[^`]*`\)/)) {
        rest = substr(told, RSTART, RLENGTH)
        split(substr(rest, 7), at, ":")
        sub(/`\)$/, "", rest)
        sub(/.*\(`/, "", rest)
        return function_at(at[1], at[2]) " " rest
    }
    if (match(told, /^(\.\/)?proofs\/[^:]*:[0-9]+:[0-9]+: error: `[^`]*`/)) {
        rest = substr(told, RSTART, RLENGTH - 1)
        place = rest
        sub(/.*`/, "", rest)
        sub(/:.*/, "", place)
        sub(/^(\.\/)?proofs\//, "", place)
        sub(/(\/(Answers|Invariants|Proof))?\.antt$/, "", place)
        gsub(/\//, "::", place)
        return place " " rest
    }
    return "no refusal: it fails at no goal: " told
}

# The same, from all that rt said of one program.
function verdict(said) {
    if (sub(/^refused, as it must be: /, "", said)) return need_in(said)
    if (said ~ /^NOT REFUSED/) return "proved"
    return "no refusal: " said
}

NR == FNR {
    split($0, pair, "\t")
    labels[++n] = pair[1]
    need[pair[1]] = pair[2]
    next
}
index($0, "rt: must-fail " name "/") == 1 {
    label = substr($0, length("rt: must-fail " name "/") + 1)
    at = index(label, ".edit: ")
    came[substr(label, 1, at - 1)] = verdict(substr(label, at + length(".edit: ")))
    next
}
{ other = other "\n" $0 }
END {
    for (i = 1; i <= n; i++) {
        label = labels[i]
        if (!(label in came)) {
            came[label] = "no refusal: rt said nothing of it"
            silent = 1
        }
        if (came[label] == need[label]) {
            if (need[label] == "proved") controls++
            else refused++
            continue
        }
        bad++
        if (need[label] == "proved") print "audit: " name "/" label ": NOT PROVED: " came[label]
        else print "audit: " name "/" label ": NOT REFUSED at '" need[label] "': " came[label]
    }
    if (silent) print "audit: " name ": rt said:" other
    printf "audit: %s: %d refused, %d controls proved, %d not so, %d s\n", name, refused, controls, bad, seconds
    printf "%d %d %d\n", refused, controls, bad > tally
}
