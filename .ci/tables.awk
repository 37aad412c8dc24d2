# What is amiss between the map of the code (the first file, made by .ci/tables' read_off) and that of a page (the
# second, made by its page_map): a line for each complaint, of all offsets that have it.

# An offset as the page writes it.
function named(module, offset) {
    return sprintf(module == "V830" ? "0x%04X" : "0x%02X", offset)
}

# Notes a complaint of an offset.
function complain(module, offset, text, key) {
    key = module " " text
    if (!(key in many)) {
        order[++keys] = key
        of[key] = module
        says[key] = text
        first[key] = last[key] = offset
    }
    many[key]++
    if (offset < first[key]) first[key] = offset
    if (offset > last[key]) last[key] = offset
}

# Whether an answer is the one for the widths and rights that were read: 2, 3, or one that document 01's order puts
# behind 1, 2 and 3.
function fits(width, right, answer) {
    if (!index(widths, width)) return answer == 2
    if (!index(rights, right)) return answer == 3
    return answer ~ /^[04-9]$/
}

# Reads widths and rights off the four answers of an offset; says whether the answers are those of widths and rights.
function read(place, a) {
    split(answers[place], a, " ")
    widths = (a[1] != 2 ? "16" : "") (a[3] != 2 ? "+32" : "")
    sub(/^\+/, "", widths)
    rights = ((a[1] a[3]) ~ /[04-9]/ ? "r" : "") ((a[2] a[4]) ~ /[04-9]/ ? "w" : "")
    return widths != "" && rights != "" && fits(16, "r", a[1]) && fits(16, "w", a[2]) && fits(32, "r", a[3]) && fits(32, "w", a[4])
}

# Compares widths or rights of the page with those of the code.
function both(name, what, page, code, possible, n, i, word) {
    n = split(possible, word, " ")
    for (i = 1; i <= n; i++) {
        if (index(page, word[i]) && !index(code, word[i])) complain($1, $2, name ": the page has the " what " " word[i] ", the code has not")
        if (!index(page, word[i]) && index(code, word[i])) complain($1, $2, name ": the code has the " what " " word[i] ", the page has not")
    }
}

# Compares a register of the page with what the code has at its offset.
function registered(place, name) {
    if (place in on_page) {
        complain($1, $2, name ": the page has the offset in a row before")
        return
    }
    on_page[place] = 1
    if (!(place in answers)) complain($1, $2, name ": the page has the offset, the code has not")
    else if (!read(place)) complain($1, $2, name ": no widths and rights have the answers " answers[place])
    else {
        both(name, "width", $3, widths, "16 32")
        both(name, "right", $4, rights, "r w")
    }
}

$1 == "amiss" {
    print "tables: " substr($0, 7)
    next
}

FNR == NR && $2 == "answered" {
    if ($3 != 262144) print "tables: " $1 ": the program answered " $3 " accesses of 262144"
    next
}

FNR == NR {
    places[++found] = $1 " " $2
    answers[$1 " " $2] = $3 " " $4 " " $5 " " $6
    next
}

{
    name = $0
    sub(/^[^ ]+ [^ ]+ [^ ]+ [^ ]+ /, "", name)
    registered($1 " " $2, name)
}

END {
    for (i = 1; i <= found; i++) {
        if (places[i] in on_page) continue
        split(places[i], at, " ")
        if (read(places[i])) complain(at[1], at[2] + 0, "the code has the offset (" widths " " rights "), the page has not")
        else complain(at[1], at[2] + 0, "the code has the offset (answers " answers[places[i]] "), the page has not")
    }
    for (i = 1; i <= keys; i++) {
        key = order[i]
        text = named(of[key], first[key])
        if (many[key] > 1) text = text " to " named(of[key], last[key]) " (" many[key] " offsets)"
        print "tables: " of[key] " " text ": " says[key]
    }
}
