# Takes a page apart: each command that is to be run goes to DIR/N.command and what it must print to DIR/N.shown, N from
# FIRST on. Prints a line each, cut by tabs: 'run PAGE LINE N'; 'code PAGE LINE TEXT' for what stands in backticks;
# 'block PAGE LINE TEXT' for a line of a block that is not run; 'link PAGE LINE TARGET'; 'amiss PAGE LINE WORDS'.
function say(what, line, text) { printf "%s\t%s\t%d\t%s\n", what, FILENAME, line, text }

# what stands in backticks, and the links, of a paragraph; a table's bar is written with a backslash there
function told(    n, i, part, text, at) {
    n = split(paragraph, part, "`")
    for (i = 2; i < n; i += 2) {
        text = part[i]
        gsub(/\\\|/, "|", text)
        say("code", began, text)
    }
    for (i = 1; i <= n; i += 2) {
        text = part[i]
        while (at = index(text, "](")) {
            text = substr(text, at + 2)
            say("link", began, substr(text, 1, index(text, ")") - 1))
        }
    }
    paragraph = ""
}

# a line of a block: a command, what it prints, or neither; blank lines between count, those at the end do not
function blocked(text,    k) {
    if (substr(text, 1, 2) == "$ ") {
        if (!running && lines) say("amiss", FNR, "a command in a block that does not begin with one is not run")
        if (!lines) running = 1
        if (running) {
            close(file)
            n = first++
            say("run", FNR, n)
            file = dir "/" n ".shown"
            print substr(text, 3) >(dir "/" n ".command")
            close(dir "/" n ".command")
            printf "" >file
        }
    } else if (running) {
        for (k = 0; k < blanks; k++) print "" >file
        print text >file
    } else {
        if (text ~ /^ +\$ /) say("amiss", FNR, "a command that is not indented by four blanks is not run")
        say("block", FNR, text)
    }
    blanks = 0
    lines++
}

function ended() { running = lines = blanks = 0 }

BEGIN { blank = 1 }
/^ *```/ { told(); fenced = !fenced; blank = 1; next }
fenced && /^ *\$ / { say("amiss", FNR, "a command between fences is not run: indent it by four blanks"); next }
fenced { say("block", FNR, $0); next }
/^    / && (blank || lines) { told(); blocked(substr($0, 5)); blank = 0; next }
/^[ \t]*$/ { told(); if (lines) blanks++; blank = 1; next }
{ ended() }
/^ *\$ / { say("amiss", FNR, "a command that is not indented by four blanks is not run") }
/^\|/ { told(); began = FNR; paragraph = $0; told(); blank = 0; next }
/^ *[-*] / { told() }
{ if (paragraph == "") began = FNR; paragraph = paragraph " " $0; blank = 0 }
END { told() }
