# What is amiss with a law of crates/promises: awk -v law=LAW -v crate=CRATE -v path=FUNCTION -v lent=PLACES -v
# gives=GIVES -f law.awk FILE. It must say, word for word, that any two permitted results of FUNCTION's own contract are
# equal (of a slice that it gives, what is in it), and likewise any two contents of each parameter that is lent to it;
# and the name that it gives that contract must be the function's. Of a function of every type the law stands in a
# section, which binds a type and what is known of it, and nothing else, and it speaks of all that the section binds: a
# hypothesis would make a law empty.

# Whether a section may bind something of a kind: a type, or of this type its laws, how it is copied, what it has of
# its own as the traits have it, or its code; each by the name that it has from where it is declared.
function is_kind(kind,    word) {
    word = kind
    sub(/ .*/, "", word)
    if (!(word in from) || !(from[word] in stands)) return 0
    if (word == "RattleType") return kind == word && type == ""
    if (word == "Dict") return kind == word
    return type != "" && kind == word " " type (word ~ /\./ ? ".Denot" : "")
}

# Whether a line begins a section that binds nothing but such kinds, each in parentheses on this very line; `all` is
# then what it binds, and `seen` what it binds of that for a function's clauses.
function begins_section(line,    sound, name, kind) {
    all = seen = type = ""
    sound = line ~ /^module _ .* where$/
    sub(/^module [^ ]+ /, "", line)
    sub(/ where$/, "", line)
    while (match(line, /^\([A-Za-z]+ : [^()]+\)( |$)/)) {
        name = kind = substr(line, 2, RLENGTH - 2)
        line = substr(line, RLENGTH + 1)
        sub(/ :.*/, "", name)
        sub(/^[A-Za-z]+ : /, "", kind)
        sub(/\).*/, "", kind)
        if (!is_kind(kind)) {
            sound = 0
            continue
        }
        if (kind == "RattleType") type = name
        all = all " " name
        if (kind !~ /^(Laws|IsCopy) /) seen = seen " " name
    }
    return sound && line == "" && all != ""
}

# That any two slices which a contract permits hold the same.
function slices(permitted) {
    return "(κ : _) (given : _) (first second : _) (e r : _) → " permitted "first e → " permitted "second r → first.now ≡ second.now"
}

BEGIN {
    from["RattleType"] = "use denote.RattleType.{RattleType}"
    from["Laws"] = from["IsCopy"] = "use denote.Param.Laws.{Laws, IsCopy}"
    from["Dict"] = "use mir.Syntax.{Dict}"
    from["clone.Ghosts"] = "use Rattle.std.specs.declared.clone.Clone as clone"
    from["scaler.Ghosts"] = "use Rattle.scaler.specs.declared.module.Scaler as scaler"
    for (word in from) known[from[word]] = 1
}
$1 == "use" { stands[$0] = 1 }
$1 == "use" && $3 == "as" { of[$4] = $2 }
/^ *(pub )?use .*[{ ](RattleType|Laws|IsCopy|Dict|clone|scaler)([ ,}]|$)/ && !($0 in known) {
    other = "what its section binds may be what is brought in by this line: " $0
}
/^ *(abbrev |unfoldable |module )?(pub )?(One[A-Z]|(RattleType|Laws|IsCopy|Dict|clone|scaler)( |$))/ {
    print "the words of the laws are defined again: " $0
}
NF && !/^ *--/ {
    match($0, /^ */)
    at = RLENGTH
    if (!at) {
        top = $0
        sound = begins_section(top)
        depth = 0
    } else if (!depth) depth = at
}
$1 == "pub" && $2 == law && $3 == ":" {
    open = 1
    under = at
    post = all
    clauses = seen
    if (at && !sound) place = "it stands under a line that is no section of a type and what is known of it alone: " top
    else if (at != depth) place = "it stands deeper than a section's own laws, in a nested one or behind a where"
    sub(/^ *pub [^ ]* : */, "")
}
open && ($1 == law || NF == 0) { open = 0 }
open { sub(/^ */, ""); text = text sep $0; sep = " " }
END {
    contract = law
    sub(/^one_/, "", contract)
    gsub(/_/, "-", contract)
    many = lent == "-" ? 0 : split(lent, places, ",")
    for (i = 1; i <= many; i++) {
        ended_at = ".0"
        for (k = 0; k < places[i]; k++) ended_at = ".1" ended_at
        contents = contents (i > 1 ? ", " : "") "e" ended_at ".now"
        lists = lists (i > 1 ? " × " : "") "List ℕ"
    }
    lends = "(λ κ e. " (many > 1 ? "(" contents ")" : contents) ")"
    its = post ? "(" contract ".Post" post ")" : contract ".Post"
    ended = clauses ? "(" contract ".ended" clauses ")" : contract ".ended"
    if (!many && gives == "slice") want = slices(contract ".Post" post " κ given ")
    else if (!many) want = "OneResult " its
    else if (gives == "nothing") want = "OneContent " its " " lends
    else want = "OneOutcome " (many > 1 ? "{A = λ κ. " lists "} " : "") its " " lends
    walked = "{M : Type 1} → OneLent {M = M} " ended " (λ 𝓤. " contract ".clauses" clauses " {𝓤 = 𝓤}) " lends
    if (text != want && !(many == 1 && gives == "result" && text == walked)) print "it must say: " want ", and says: " text
    source = of[contract]
    sub(/\.Reads$/, "", source)
    if (source !~ "^Rattle\\." crate "\\.(proofs|specs\\.contracts)\\.([A-Za-z_0-9]+\\.)*" path "$") print "it is of the contract of " source
    if (place) print place
    if (under && other) print other
}
