# The citations of tests/names.sh. Input: the paths of the repository, the sources, the documents; `kind` says which.

BEGIN {
    # Words of the files, of the languages and of commands, which are no names here.
    split("in const neg rot add mul out enc rs ms us ds circuit schedule rising refused requires ensures break rt extern read write memset memcpy printf i32 downscale", list, " ")
    for (i in list) words[list[i]] = 1
    split("old: new: file: ?", list, " ")
    for (i in list) words[list[i]] = 1
}

function base(path) { sub(/.*\//, "", path); return path }
function stem(path) { path = base(path); sub(/\.[a-z]+$/, "", path); return path }

kind == "paths" {
    paths[$0] = 1
    if ($0 ~ /^crates\// || $0 !~ /\//) names[base($0)] = names[stem($0)] = 1
    next
}

function define(name) {
    names[name] = 1
    defined[FILENAME, name] = 1
    dotted[stem(FILENAME) "." name] = 1
    crate = FILENAME
    sub(/^crates\//, "", crate)
    sub(/\/.*/, "", crate)
    of_crate[crate, stem(FILENAME) "." name] = 1
}

# A record, a data type, a struct or an enum, with the fields and cases below it.
function begin_type(name) {
    define(name)
    type = name
}

function member(name) {
    define(name)
    if (type != "") dotted[type "." name] = 1
}

# The names of the header for C, and what stands at the margin of the command's sources: a function or a table.
kind == "sources" && FILENAME ~ /\.[ch]$/ {
    if (match($0, /^(#define | +)GOWASHIRU_[A-Z_]+/) || match($0, /^[a-z][a-z_0-9 *]*[(\[]/)) {
        name = substr($0, RSTART, RLENGTH)
        sub(/[(\[]$/, "", name)
        sub(/.*[ *]/, "", name)
        define(name)
    }
    next
}

kind == "sources" && FILENAME ~ /\.rt$/ {
    line = $0
    if (line ~ /^[^ }]/) type = ""
    if (match(line, /(fn|struct|enum|const|type|mod) [A-Za-z_0-9]+/)) {
        name = substr(line, RSTART, RLENGTH)
        sub(/.* /, "", name)
        if (line ~ /^(pub )?(struct|enum) /) begin_type(name)
        else define(name)
    } else if (match(line, /^ +(pub )?[A-Za-z_]+[,:({ ]/) && type != "") {
        name = substr(line, RSTART, RLENGTH - 1)
        sub(/.* /, "", name)
        member(name)
    }
    next
}

# A definition stands at the margin, with `pub` before it or with its type after it; a field or a case further in than its type.
kind == "sources" {
    line = $0
    sub(/^ +/, "", line)
    if (line == "" || line ~ /^(--|use |module )/) next
    indent = length($0) - length(line)
    if (indent <= type_indent) type = ""
    is_public = 0
    while (line ~ /^(pub|abbrev|unfoldable|private|opaque) /) {
        if (line ~ /^pub /) is_public = 1
        sub(/^[a-z]+ /, "", line)
    }
    count = split(line, parts, " ")
    if (parts[1] == "record" || parts[1] == "data") {
        begin_type(parts[2])
        type_indent = indent
    } else if (type != "") {
        # Several names may stand before one colon.
        if (match(line, /^[^:={(]+ : /)) for (i = 1; parts[i] != ":"; i++) member(parts[i])
    } else if (parts[2] == ":" || (indent == 0 || is_public) && line ~ /[:=]/) {
        define(parts[1])
    }
    next
}

# The file that a path of a citation means: from the top, under crates/ or docs/, or from a folder within a crate; "" if there is none.
function file_of(path,    known, i, candidates) {
    sub(/\/$/, "", path)
    split(path " " path ".antt crates/" path " crates/" path ".antt docs/" path, candidates, " ")
    for (i = 1; i <= 5; i++)
        if (candidates[i] in paths) return candidates[i]
    if (path ~ /\*/) {
        gsub(/\./, "\\.", path)
        gsub(/\*/, "[^/]*", path)
        for (known in paths) if (known ~ "^" path "$") return known
        return ""
    }
    for (known in paths)
        if (ends(known, "/" path) || ends(known, "/" path ".antt")) return known
    # rules/strict_modulus is crates/rules/must-fail/strict_modulus.edit.
    known = path
    if (sub(/\//, "/must-fail/", known) && ("crates/" known ".edit") in paths) return "crates/" known ".edit"
    return ""
}

function ends(text, end) {
    return length(text) >= length(end) && substr(text, length(text) - length(end) + 1) == end
}

function missing(what) {
    printf "%s:%d: `%s`: %s\n", FILENAME, FNR, cited, what
    faults++
}

function check_path(path) {
    # What is built need not be there, and a path with NAME in it stands for many.
    if (path ~ /^target\// || path ~ /NAME/ || path == "/") return
    if (file_of(path) == "") missing("no such file")
}

# A citation with a file in front: model/proofs/Theorems: checks.
function check_in_file(path, name,    file) {
    file = file_of(path)
    if (file == "") missing("no such file")
    else if (!((file, name) in defined)) missing("not defined in " file)
}

function check(before,    parts, count, i) {
    if (cited in words || cited in names) {
        return
    } else if (cited ~ /^[^ ]*\/[^ ]*: [^ ]+$/) {
        split(cited, parts, ": ")
        check_in_file(parts[1], parts[2])
    } else if (cited ~ / /) {
        # A command or a line of a file: only its paths are looked at.
        count = split(cited, parts, " ")
        for (i = 1; i <= count; i++) {
            sub(/^\.\//, "", parts[i])
            if (parts[i] ~ /\/./) check_path(parts[i])
        }
    } else if (cited ~ /::/) {
        split(cited, parts, "::")
        check_in_file(parts[1] "/src/lib.rt", parts[2])
    } else if (cited ~ /\// || cited ~ /\.(md|sh|c|h|txt|svg|rt|antt|edit)$/) {
        sub(/^\.\//, "", cited)
        check_path(cited)
    } else if (cited ~ /^[A-Za-z]+\.[^.]+$/) {
        if ((before in crates) && cited ~ /^[A-Z]/) {
            if (!((before, cited) in of_crate)) missing("not defined in crate " before)
        } else if (!(cited in dotted)) missing("not defined")
    } else if (cited ~ /^[A-Za-z][A-Za-z_0-9-]*$/) {
        missing("no such name")
    }
}

kind == "documents" {
    if (!gathered) {
        for (path in paths) if (path ~ /^crates\/[^\/]+$/) crates[base(path)] = 1
        gathered = 1
    }
    # Every second piece stands in backticks. A crate's name with only a space after it says where the next name is defined.
    count_pieces = split($0, pieces, "`")
    for (p = 2; p < count_pieces; p += 2) {
        cited = pieces[p]
        before = p > 2 && pieces[p - 1] == " " ? pieces[p - 2] : ""
        checked++
        check(before)
    }
}

END {
    if (faults || !checked) {
        printf "names: %d of %d citations name nothing\n", faults, checked
        exit 1
    }
    printf "names: %d citations, each names a file or a name that is there\n", checked
}
