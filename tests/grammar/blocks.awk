# Writes the examples of a page into `folder`: NAME.dogma is a grammar, NAME.frames its frames and NAME.out what bench must print. In the page they are fenced blocks:
#   ```grammar NAME   a grammar; without a first line of a header it gets the usual header, and with no line at all it is the empty text
#   ```prints NAME    a line for the grammar, then for each frame its hexadecimal, what is printed for it and perhaps a remark, two blanks or more apart;
#                     `(empty)` is a frame of no bytes, and `41 x 3` is 414141
#   ```lines NAME     several grammars: for each its rules, what is printed for them and perhaps a remark, two blanks or more apart
function fail(what) {
    print "grammar: " FILENAME ":" FNR ": " what | "cat >&2"
    failed = 1
    exit 1
}

function frame(word,    parts, digits, i) {
    if (word == "(empty)") return ""
    if (split(word, parts, " x ") != 2) return word
    for (i = 0; i < parts[2]; i++) digits = digits parts[1]
    return digits
}

function begin_file(path) {
    if (path in written) fail("a second " kind " " name)
    written[path] = 1
    printf "" > path
}

BEGIN { header = "dogma_v1 utf-8\n\n" }

kind == "" && /^```(grammar|prints|lines) / {
    kind = substr($1, 4)
    name = $2
    count = 0
    if (name !~ /^[a-z0-9_]+$/ || NF != 2) fail("a block without a plain name")
    if (kind == "grammar") begin_file(folder "/" name ".dogma")
    if (kind == "prints") { begin_file(folder "/" name ".out"); begin_file(folder "/" name ".frames") }
    next
}

kind != "" && /^```$/ {
    if (kind != "grammar" && count == 0) fail("nothing is printed in " name)
    kind = ""
    next
}

kind == "grammar" {
    if (count++ == 0 && tolower($0) !~ /dogma_v1/) printf "%s", header > (folder "/" name ".dogma")
    print > (folder "/" name ".dogma")
}

kind == "prints" {
    columns = split($0, column, /   */)
    if (count++ == 0) print > (folder "/" name ".out")
    else if (columns < 2) fail("no line is printed for a frame")
    else {
        print frame(column[1]) > (folder "/" name ".frames")
        print column[2] > (folder "/" name ".out")
    }
}

kind == "lines" {
    if (split($0, column, /   */) < 2) fail("no line is printed for a grammar")
    path = folder "/" name "-" ++count
    begin_file(path ".dogma")
    printf "%s%s\n", header, column[1] > (path ".dogma")
    print column[2] > (path ".out")
    printf "" > (path ".frames")
    close(path ".dogma"); close(path ".out"); close(path ".frames")
}

END { if (!failed && kind != "") fail("the block of " name " is not closed") }
