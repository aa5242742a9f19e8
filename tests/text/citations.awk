# Prints every wrong citation of the documents, a line each: `FILE:LINE: what`, and last how many citations there are.
# Usage: find .. | awk -f citations.awk - CODE.. docs/FILE.md..    (all files of the repository; those that declare names; documents)
#
# A citation is a span in backticks, of one of these forms:
#   `F: a, b`            crates/definition/specs/F.antt declares a and b
#   `crate/F: a, b`      specs/F.antt or proofs/F.antt of that crate does
#   `F: a FRAGMENT`      the same, and the fragment stands in a's declaration; an example is cited so, or as `F: a ..` for all of it
#   `crate::a`           src/lib.rt or src/main.rt of that crate declares a; `crate::m::a`: src/m.rt
#   `crate/a.edit`       crates/crate/must-fail/a.edit, or the wrong program `a` in an edit there
#   `suite: a test`      a test of that name (`suite` below)
#   `a/path`, `file.md`  a file or a folder, by its path from the root
#   `path: a`            the file there declares a
# A table's columns that are for citations have nothing else in backticks. Elsewhere a word that looks like a name of the code is one,
# and a file of Rattle is cited in backticks.

BEGIN {
    split("Defined Promised Code Proved Tested Definition Example Form Law", words, " ")
    for (i in words)
        citing[words[i]] = 1
    # files of examples, which are cited with the line that is meant
    split("Examples Manual Numbers NameBytes Starts Depths Walks Orderings Boards bounds/Bounds bounds/Lookups bounds/Walks board_bounds/Boards " \
        "listing/Examples arguments/Examples answers_listed/Examples", words, " ")
    for (i in words)
        examples[words[i]] = 1
    # what the names of a suite's tests are quoted in
    suite["model"] = "^tests/tool/model_tests.rs$"
    suite["port"] = "^tests/(tool/port/[a-z_]*|cases/(readings|lookups|limits|dotted|struck|chains|named_chains|images|walks|orders)).rs$"
    suite["beside"] = "^tests/(cases/(readings|lookups|chains)|tool/beside/families).rs$"
    suite["list"] = "^tests/list$"
    suite["getres"] = "^tests/getres$"
    suite["replay"] = "^tests/replay$"
    suite["c"] = "^tests/c/limits.c$"
    suite["rust"] = "^rust/tests/[a-z_]*.rs$"
    suite["recorded"] = "^crates/replay(_default)?/data/[a-z]*.txt$"
    # words of Rust, C and the documents
    split("u8 u16 usize i64 bool Option Result String Vec FnMut FromStr ZipLongest MatchKind str slice from_str borrow try_borrow " \
        "parse_with_matcher new_from_default new_from_get_property_reply new_from_data_with_base_directory GET_RESOURCE_DATABASE " \
        "shelf pub use mod none result NULL Ok Err std stdout grep diff rustc python3 refl mallinfo2 RESOURCE_MANAGER_SRC", words, " ")
    for (i in words)
        foreign[words[i]] = 1
}

function wrong(what) {
    print FILENAME ":" FNR ": `" span "`: " what
    bad++
}

function declare(name) {
    declared[FILENAME, name] = FNR
    anywhere[name] = 1
}

# ---- The files, and what they declare

FILENAME == "-" {
    sub(/^\.\//, "")
    exists[$0] = 1
    n = split($0, steps, "/")
    for (s in suite)
        if (s == "recorded" && $0 ~ suite[s]) {
            sub(/\.txt$/, "", steps[n])
            tests[s, steps[n]] = 1
        }
    if ($0 ~ /^crates\/[a-z0-9_]+$/)
        anywhere[steps[2]] = crate[steps[2]] = 1
    next
}

FNR == 1 {
    for (s in suite)
        if (FILENAME ~ suite[s])
            suites = suites " " s
    many = split(suites, of, " ")
    suites = ""
    header = 0
}

# The quoted texts of a line are names of tests.
many && FILENAME !~ /\.md$/ {
    line = $0
    while (match(line, /"[^"]*"|'[^']*'/)) {
        for (i = 1; i <= many; i++)
            tests[of[i], substr(line, RSTART + 1, RLENGTH - 2)] = 1
        line = substr(line, RSTART + RLENGTH)
    }
    if (match($0, /^ *(expect|value|none|trouble|both) [a-z]+/) && split(substr($0, RSTART, RLENGTH), words, " "))
        tests[of[1], words[2]] = 1
}

FILENAME ~ /\.antt$/ {
    kept[FILENAME, FNR] = $0
    last[FILENAME] = FNR
    line = $0
    sub(/^ */, "", line)
    while (sub(/^(abbrev|unfoldable|pub|opaque|private) /, "", line)) {}
    if (line ~ /^(record|data) / || line ~ /^[^ ()]+( [a-z]+)* :( |$)/) {
        begins[FILENAME, FNR] = 1
        sub(/^(record|data) /, "", line)
        sub(/ :.*/, "", line)
        n = split(line, words, " ")
        for (i = 1; i <= n && words[i] !~ /^\(/; i++)
            declare(words[i])
    }
    next
}

FILENAME ~ /\.(rt|rs|c|h)$/ {
    among = /^(pub )?(struct|enum) .*[{]$/ || among && !/^}/
    line = $0
    sub(/^ *(pub(\([a-z]+\))? )?(static |inline |const |extern "C" |unsafe |void \*?|uint64_t )*/, "", line)
    if (line ~ /^(fn|struct|enum|type|trait|mod|const) / || $0 ~ /^(pub )?const [A-Z]/) {
        sub(/^(fn|struct|enum|type|trait|mod|const) /, "", line)
        sub(/[^A-Za-z0-9_].*/, "", line)
        declare(line)
        for (i = 1; i <= many; i++)
            tests[of[i], line] = 1
    } else if (among && match($0, /^ +(pub )?[A-Za-z_]+[,:({]/)) {
        # a variant or a field
        sub(/[^A-Za-z0-9_].*/, "", line)
        declare(line)
    } else if (match($0, /(^#define |^ +)[A-Z_]+ |^[a-z].*resource_manager_[a-z_]+\(|^static [a-z0-9_]+ \*?[a-z_]+\(/)) {
        line = substr($0, RSTART, RLENGTH)
        sub(/[ (]$/, "", line)
        sub(/.*[ *]/, "", line)
        declare(line)
        for (i = 1; i <= many; i++)
            tests[of[i], line] = 1
    }
    next
}

# ---- Citations

# Does a file of specs or proofs declare the name, and does the fragment stand in the declaration?
function in_file(file, name, fragment,    i) {
    if (!((file, name) in declared))
        return 0
    if (fragment == "" || fragment == "..")
        return 1
    for (i = declared[file, name]; i <= last[file] && (i == declared[file, name] || !((file, i) in begins)); i++)
        if (index(kept[file, i], fragment))
            return 1
    wrong("no such line in " file)
    return 1
}

function in_specs(where, name, fragment,    path) {
    if (fragment == "" && where in examples)
        wrong("an example without its line")
    path = where
    if (!sub(/\//, "/specs/", path))
        path = "definition/specs/" path
    path = "crates/" path ".antt"
    if (in_file(path, name, fragment))
        return
    sub(/\/specs\//, "/proofs/", path)
    if (!in_file(path, name, fragment))
        wrong(name " is not declared there")
}

function in_code(s,    n, steps, file) {
    n = split(s, steps, "::")
    file = "crates/" steps[1] "/src/" (n == 3 ? steps[2] : "lib") ".rt"
    if (n == 2 && !(file in exists))
        sub(/lib/, "main", file)
    if (!((file, steps[n]) in declared))
        wrong(steps[n] " is not in " file)
}

# Is the span a citation? Says so, and what is wrong with it.
function cited(s,    i, head, rest, n, names) {
    span = s
    if (s ~ /^[a-z_0-9]+::/ && s !~ /^(std|i64)::/) {
        in_code(s)
        return 1
    }
    i = index(s, ": ")
    head = substr(s, 1, i - 1)
    rest = substr(s, i + 2)
    if (i && head in suite) {
        if (!((head, rest) in tests))
            wrong("no such test")
        return 1
    }
    if (i && head ~ /^([a-z0-9_]+\/)?[A-Z][A-Za-z]*$/) {
        if (rest ~ /^[^ ]+[^ ,] /) {
            n = index(rest, " ")
            in_specs(head, substr(rest, 1, n - 1), substr(rest, n + 1))
        } else {
            n = split(rest, names, ", ")
            for (i = 1; i <= n; i++)
                in_specs(head, names[i], "")
        }
        return 1
    }
    if (i && head in exists) {
        n = split(rest, names, ", ")
        for (i = 1; i <= n; i++)
            if (!((head, names[i]) in declared))
                wrong(names[i] " is not declared there")
        return 1
    }
    if (s ~ /^[a-z0-9_]+\/[a-z0-9_]+\.edit$/) {
        sub(/\//, "/must-fail/", s)
        if (!("crates/" s in exists))
            wrong("no such edit")
        return 1
    }
    if (s ~ /^(crates|docs|include|rust|examples|tests|tools|\.ci)(\/|$)/ || s ~ /^([A-Za-z]+\.(md|txt|antt|edit|rt)|Makefile|NOTICE)$/) {
        sub(/\/$/, "", s)
        if (!(s in exists || (s ~ /\.antt$/ && "crates/definition/specs/" s in exists)))
            wrong("no such file")
        return 1
    }
    return 0
}

# The header of a table says which of its columns are for citations; a rule of dashes follows it.
/^\|/ {
    if (!header) {
        columns = split($0, title, / *\| */)
        header = 1
    }
    cells = split($0, cell, / \| |^\| | \|$/)
}
!/^\|/ {
    header = 0
    cells = 1
    cell[1] = $0
}
FILENAME ~ /\.md$/ {
    for (c = 1; c <= cells; c++) {
        if (header && title[c] == "Example" && cell[c] == "-") {
            span = cell[c]
            wrong("no example")
        }
        pieces = split(cell[c], piece, "`")
        for (p = 1; p <= pieces; p += 2)
            if (match(piece[p], /[A-Za-z_]+\.(antt|rt|edit)/)) {
                span = substr(piece[p], RSTART, RLENGTH)
                wrong("not in backticks")
            }
        for (p = 2; p < pieces; p += 2) {
            if (cited(piece[p]))
                citations++
            else if (header && title[c] in citing)
                wrong("no citation")
            else if (piece[p] ~ /^[A-Za-z][A-Za-z0-9_]*$/ && length(piece[p]) > 2 && !(piece[p] in foreign || piece[p] in anywhere) \
                && (FILENAME !~ /DIFFERENCES/ || piece[p] ~ /_/))
                wrong("no such name")
        }
    }
}
END {
    print citations + 0 " citations, " bad + 0 " wrong"
    exit bad > 0
}
