# The public functions of a file, the methods that a public trait declares among them: awk -v crate=CRATE -v
# module=MODULE -f functions.awk FILE prints 'CRATE FUNCTION MODULE LENT GIVES CLAUSES' of each, lent the places of the
# parameters that are lent to be changed (0,2, or - for none; the handle of the host has its place, too), gives what it
# gives back (nothing, a slice or another result), and clauses the words requires and ensures as its head has them,
# without the names of clauses.

{ sub(/\/\/.*/, "") }
/^ *pub (unsafe )?trait / && !/\} *$/ {
    trait = $0
    sub(/pub .*/, "}", trait)
}
trait != "" && index($0, trait) == 1 { trait = "" }
/^ *pub (const )?(extern "C" )?fn / || trait != "" && /^ *((const|final|unsafe) )*fn / {
    name = $0
    sub(/^[^(]*fn /, "", name)
    sub(/[^A-Za-z0-9_].*/, "", name)
    clauses = head = ""
    open = 1
}
open {
    clause = /^ *(requires|ensures)/
    if (clause) clauses = clauses " " $1
    else head = head $0
}
# the head of a function ends where its body begins, that of a method without a body at a semicolon
open && (!clause && /\{/ || trait != "" && /; *$/) {
    sub(/\{.*/, "", head)
    gives = head ~ /->/ ? "result" : "nothing"
    if (head ~ /-> &('[a-z_]+ )?\[[^;]*\][ ;]*$/) gives = "slice"
    sub(/->.*/, "", head)
    n = split(head, parameters, ",")
    lent = ""
    for (i = 1; i <= n; i++) if (parameters[i] ~ /&mut /) lent = lent "," (i - 1)
    print crate, name, module, (lent ? substr(lent, 2) : "-"), gives clauses
    open = 0
}
