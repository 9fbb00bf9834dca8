# apply.awk: whether wrong answers can still be made, and makes them.
#
#     awk -v crates=FOLDER [-v make=1] -f apply.awk CRATE/NAME.edit ...
#
# Each file is a must-fail edit of the crate FOLDER/CRATE: lines `file: PATH`, a file of the crate, then pairs of lines `old: TEXT` and `new: TEXT`, of which
# TEXT stands once in what the pairs before made of that file. Prints a line `CRATE/NAME: why not` for each that cannot be made; with `make` the files are changed
# where all can. The status is 1 where one cannot.

FNR == 1 {
    finish()
    begin(FILENAME)
}

/^file: / {
    path = substr($0, 7)
    if (path !~ /^(src|specs|proofs)\// && why == "") why = "'" path "' is no file below src/, specs/ or proofs/"
    next
}

/^old: / {
    old = substr($0, 6)
    next
}

/^new:/ {
    new = substr($0, 5)
    sub(/^ /, "", new)
    if (why == "") replace()
    old = ""
    pairs += 1
    next
}

$0 != "" && !/^(#|--|\/\/)/ && why == "" { why = "a line is neither file, old, new nor a comment: " $0 }

END {
    finish()
    # A file without a line.
    for (i = 1; i < ARGC; i++) {
        if (ARGV[i] in begun) continue
        begin(ARGV[i])
        finish()
    }
    if (bad > 0) exit 1
    if (make) for (place in made) printf "%s", made[place] >place
}

# Begins with the edit of a file.
function begin(file,    parts, part) {
    begun[file] = 1
    sub(/\.edit$/, "", file)
    parts = split(file, part, "/")
    crate = part[parts - 1]
    label = crate "/" part[parts]
    path = old = why = ""
    pairs = changed = 0
    split("", text)
}

# Puts `new` in the place of `old` in the file, if that stands there once.
function replace(    at, found) {
    if (path == "" || old == "") {
        why = "a `new` stands before any `file` or `old`"
        return
    }
    if (!(path in text) && !read(path)) {
        why = "no file " path
        return
    }
    at = index(text[path], old)
    found = occurrences(text[path], old)
    if (found != 1) {
        why = "in " path " " found " times, and not once: " old
        return
    }
    text[path] = substr(text[path], 1, at - 1) new substr(text[path], at + length(old))
    if (new != old) changed = 1
}

# Reads a file of the crate into `text`; false where there is none.
function read(path,    place, line, status) {
    place = crates "/" crate "/" path
    text[path] = ""
    while ((status = (getline line <place)) > 0) text[path] = text[path] line "\n"
    close(place)
    return status == 0
}

function occurrences(where, what,    count, at) {
    count = 0
    while ((at = index(where, what)) > 0) {
        count += 1
        where = substr(where, at + length(what))
    }
    return count
}

# Says what was wrong with the edit before, and keeps what it makes.
function finish(    path) {
    if (label == "") return
    if (why == "" && pairs == 0) why = "there is no pair of `old` and `new`"
    if (why == "" && !changed) why = "it changes nothing"
    if (why != "") {
        print label ": " why
        bad += 1
    } else {
        for (path in text) made[crates "/" crate "/" path] = text[path]
    }
}
