# Of a source file of resource_manager or of resource_manager_c, a line for each public function: its name, parameters and clauses in one line,
# or the one call that its body is. The body of a library's function, which is what it is, is told as the call that is wanted of an export.
# Usage: awk -v what=heads|bodies -v file=MODULE -f exports.awk FILE.rt

function put(name, params, rest, body,    call, n, parts, i, p) {
    if (what == "heads") {
        print file, name, params, rest
        return
    }
    if (FILENAME ~ /^crates\/resource_manager_c\//) {
        gsub(/ /, "", body)
        sub(/,\)/, ")", body)
        print name, exported ? "exported" : "not exported", body
        return
    }
    call = "resource_manager::" (file == "lib" ? "" : file "::") name "("
    n = split(params, parts, ",")
    for (i = 1; i <= n; i++) {
        p = parts[i]
        sub(/:.*/, "", p)
        gsub(/[ (]/, "", p)
        if (p != "" && p != ")")
            call = call (i > 1 ? "," : "") p
    }
    print name, "exported", call ")"
}

/^ *\/\// {
    next
}
/^#\[unsafe\(no_mangle\)\]$/ {
    marked = 1
    next
}
/^pub / && / fn / {
    exported = marked && / extern "C" fn /
    marked = 0
    head = $0
    sub(/^pub (extern "C" )?fn /, "", head)
    where = head ~ / [{]$/ ? "body" : "head"
    body = ""
    next
}
where == "head" && /^[{]$/ {
    where = "body"
    next
}
where == "head" {
    head = head " " $0
    next
}
where == "body" && /^}$/ {
    gsub(/ +/, " ", head)
    name = params = head
    sub(/[^A-Za-z0-9_].*/, "", name)
    rest = head
    sub(/^[^(]*\(/, "(", params)
    sub(/\) -> .*/, ")", params)
    sub(/^.*\) -> /, "-> ", rest)
    sub(/^\( */, "(", params)
    sub(/,? *\)$/, ")", params)
    life = head
    sub(/\(.*/, "", life)
    put(name, params, life " " rest, body)
    where = ""
    next
}
where == "body" {
    body = body $0
}
