# Prints every public function, `crate::name`, and for each thing that its contract leaves free a line `crate::name: what`.
# Usage: awk -f contracts.awk FILE.rt..
#
# A function gives a result, and may write each place that it is lent as `&mut`. Its `ensures` fixes one of these if it stands in an
# equation that holds outright, not under a condition, and that gives it back whole: `take n out` says a part of `out` alone. The
# equation may stand in a record or a definition of the specs that the `ensures` names; each case of a definition must have one. Of a
# result that may be a part of one slice or of another, or that holds such a part, the place (`.ref_ptr`) is to be fixed too.
#
# Expressions are tokens with a blank between them. `result.field` is one token, and so is `out.new`, what is lent as it is afterwards; what
# stands behind a reference is the reference itself, `result` for `result.now`.

function normal(s,    n, t, i, w, out) {
    gsub(/«|»/, "", s)
    gsub(/[(){},;]/, " & ", s)
    n = split(s, t, " ")
    for (i = 1; i <= n; i++) {
        w = t[i]
        sub(/\.now$/, "", w)
        out = out (w ~ /^\.[a-z]/ && out ~ /[^)]$/ ? "" : " ") w
    }
    return out
}

# The parts of e between the tokens sym that stand in no bracket.
function cut(e, sym, parts,    n, t, i, depth, k) {
    n = split(e, t, " ")
    parts[k = 1] = ""
    for (i = 1; i <= n; i++) {
        depth += (t[i] ~ /^[({]$/) - (t[i] ~ /^[)}]$/)
        if (t[i] == sym && !depth)
            parts[++k] = ""
        else
            parts[k] = parts[k] " " t[i]
    }
    return k
}

# The name of an application and its arguments, brackets and all; args[0] is the name.
function arguments(e, args,    n, t, i, depth, k) {
    n = split(e, t, " ")
    k = -1
    for (i = 1; i <= n; i++) {
        if (!depth)
            args[++k] = ""
        depth += (t[i] ~ /^[({]$/) - (t[i] ~ /^[)}]$/)
        args[k] = args[k] " " t[i]
    }
    sub(/^ /, "", args[0])
    return k
}

# Without brackets round the whole.
function bare(e,    args) {
    while (arguments(e, args) == 0 && e ~ /^ *\(/) {
        sub(/^ *\( /, "", e)
        sub(/ \) *$/, "", e)
    }
    return e
}

# The tokens that a value of e gives back: e itself, what a constructor, a record or a list holds, what an `if` decides by, and the
# arguments that a definition gives back in each of its cases. `take n t` gives back neither n nor t.
function given_back(e, from,    parts, n, i, key, all, out) {
    e = bare(e)
    if ((n = cut(e, "∷", parts)) > 1 || (n = cut(e, ",", parts)) > 1) {
        for (i = 1; i <= n; i++)
            out = out given_back(parts[i], from)
        return out
    }
    n = arguments(e, parts)
    if (parts[0] == "if") {
        cut(e, "then", parts)
        sub(/^ if/, "", parts[1])
        return given_back(parts[1], from)
    }
    if (parts[0] == "record" && n == 1) {
        sub(/^ [{]/, "", parts[1])
        sub(/}$/, "", parts[1])
        n = cut(parts[1], ";", parts)
        for (i = 1; i <= n; i++) {
            sub(/^ [^ ]+ =/, "", parts[i])
            out = out given_back(parts[i], from)
        }
        return out
    }
    if (n == 0)
        return " " parts[0] " "
    # what the references of a list show
    if (parts[0] == "map" && n == 2 && bare(parts[1]) ~ /^ *λ x\. x$/)
        return given_back(parts[2], from)
    # and where they lie
    if (parts[0] == "map" && n == 2 && bare(parts[1]) ~ /^ *λ x\. x\.ref_ptr$/) {
        out = given_back(parts[2], from)
        gsub(/[^ ]+/, "&.ref_ptr", out)
        return out
    }
    key = named(parts[0], from)
    all = parts[0] ~ /^([A-Z]|some$)/ || kind[key] == "constructor"
    if (n == 1 && key in viewed)
        out = " " parts[0] ":" bare(parts[1]) " "
    gsub(/: +/, ":", out)
    for (i = 1; i <= n; i++)
        if (all || (key != "" && index(kept(key), " " (i + shift(key, from)) " ")))
            out = out given_back(parts[i], from)
    return out
}

# The tokens that e fixes, as seen from the definition or the source file `from`.
function fixed(e, from,    parts, n, i, out) {
    e = bare(e)
    n = cut(e, "×", parts)
    if (n > 1) {
        for (i = 1; i <= n; i++)
            out = out fixed(parts[i], from)
        return out
    }
    n = cut(e, "→", parts)
    if (n > 1) {
        for (i = 1; i < n; i++)
            if (parts[i] !~ /^( \( [^()]* : .* \))+ *$/ || parts[i] ~ /≡|≤|<|⊥/)
                return ""
        return fixed(parts[n], from)
    }
    if (cut(e, "≡", parts) == 2)
        return apart(given_back(parts[1], from), parts[2]) apart(given_back(parts[2], from), parts[1])
    return applied(e, from)
}

# The tokens that do not stand on the other side too, as in `r ≡ r`.
function apart(tokens, other,    n, t, i, out) {
    n = split(tokens, t, " ")
    for (i = 1; i <= n; i++)
        if (!index(other " ", " " t[i] " "))
            out = out " " t[i] " "
    return out
}

# The same for a name of the specs with its arguments: those that stand where the name's own text fixes them.
function applied(e, from,    n, args, key, i, out) {
    n = arguments(e, args)
    if (args[0] == "MatchResult" && n == 3)
        return taken(args[2], okType, from) && taken(args[3], errType, from) ? given_back(args[1], from) : ""
    key = named(args[0], from)
    if (key == "")
        return ""
    for (i = 1; i <= n; i++)
        if (index(places(key), " " (i + shift(key, from)) " "))
            out = out given_back(args[i], from)
    return out
}

# Does what is said of each value fix it? It is said by `λ x. ..`, or by a name that wants one argument more.
function taken(e, type, from,    v) {
    e = bare(e)
    if (!match(e, /^ *λ [^ ]+\. /))
        return covered("it", type, fixed(e " it", from))
    v = substr(e, 1, RLENGTH)
    gsub(/^ *λ |\. $/, "", v)
    return covered(v, type, fixed(substr(e, RLENGTH), from))
}

# How many arguments a declaration takes from the module that it shares with the place where it is used.
function shift(key, from) {
    return inside[key] == inside[from] ? offset[key] : 0
}

# The declaration that a name means in a file, or in a declaration's file. A file may pass a name on by `pub use`.
function named(name, from,    path, module) {
    path = from
    sub(SUBSEP ".*", "", path)
    module = name
    if (sub(/\..*/, "", module) && (path, module) in imported) {
        sub(/^[^.]*\./, "", name)
        path = imported[path, module]
        load(path)
    } else if ((path, name) in imported) {
        name = imported[path, name]
        path = name
        sub(SUBSEP ".*", "", path)
        sub(".*" SUBSEP, "", name)
        load(path)
        if ((path, name) in imported)
            return named(name, path)
    }
    return (path, name) in kind ? path SUBSEP name : ""
}

# Is a variable fixed, itself or, if it is a struct, each of its fields? Crates may have structs of one name: one of them must fit.
# A buffer with how far it is written is what stands there and what is left.
function covered(v, type, f,    n, m, files, names, i, j) {
    if (index(f, " " v " ") || (index(f, " " v ".0 ") && index(f, " " v ".1 ")))
        return 1
    sub(/<.*/, "", type)
    if (type in views) {
        n = split(views[type], names, " ")
        for (i = 1; i <= n && index(f, " " names[i] ":" v " "); i++) {}
        return i > n && n == 2
    }
    n = split(structs[type], files, " ")
    for (i = 1; i <= n; i++) {
        m = split(fields[files[i], type], names, " ")
        for (j = 1; j <= m && index(f, " " v "." names[j] " "); j++) {}
        if (j > m)
            return 1
    }
    return 0
}

# The numbers of the arguments that a record, or each case of a definition, fixes; and of those that each case gives back.
function places(key,    n, lines, i, j, f, out) {
    if (kind[key] != "record")
        return in_cases(key, "fixed")
    if (key in known)
        return known[key]
    known[key] = " "
    n = split(text[key], lines, "\n")
    for (i = 2; i <= n; i++)
        f = f fixed(lines[i], key)
    for (j = 1; j <= arity[key]; j++)
        if (covered(parameter[key, j], ofType[key, j], f))
            out = out " " j " "
    return known[key] = out
}

function kept(key) {
    return in_cases(key, "given back")
}

function in_cases(key, what,    n, lines, i, j, f, pats, miss, out) {
    if ((key, what) in known)
        return known[key, what]
    known[key, what] = " "
    n = split(text[key], lines, "\n")
    for (i = 2; i <= n; i++) {
        j = index(lines[i], " = ")
        f = what == "fixed" ? fixed(substr(lines[i], j + 2), key) : given_back(substr(lines[i], j + 2), key)
        delete pats
        arguments(substr(lines[i], 1, j), pats)
        for (j = 1; j <= arity[key]; j++)
            if (j <= offset[key] ? !covered(parameter[key, j], ofType[key, j], f) : !held(pats[j - offset[key]], ofType[key, j], f))
                miss = miss " " j " "
    }
    for (j = 1; j <= arity[key]; j++)
        if (n > 1 && !index(miss, " " j " "))
            out = out " " j " "
    return known[key, what] = out
}

# Is what a pattern binds fixed? A constructor is, with all that it holds.
function held(p, type, f,    n, args, i) {
    n = arguments(bare(p), args)
    if (args[0] !~ /^([A-Z]|.*\.[A-Z])/)
        return n == 0 && covered(args[0], type, f)
    for (i = 1; i <= n; i++)
        if (!held(args[i], within(args[0], type), f))
            return 0
    return 1
}

# The type of what a constructor of an Option or a Result holds; of another, none is known.
function within(constructor, type,    args) {
    arguments(bare(type), args)
    sub(/.*\./, "", constructor)
    sub(/.*\./, "", args[0])
    constructor = args[0] " " constructor
    type = constructor ~ /^(Option Some|Option some|Result Ok)$/ ? bare(args[1]) : constructor == "Result Err" ? bare(args[2]) : ""
    gsub(/^ +| +$/, "", type)
    return type
}

# ---- Files

# What `use` lines bring into a file.
function import(path, line,    crate, where, n, names, i, pair) {
    if (!sub(/^.*use Rattle\./, "", line))
        return
    sub(/;$/, "", line)
    match(line, /^[a-z0-9_]+/)
    crate = substr(line, 1, RLENGTH)
    line = substr(line, RLENGTH + 1)
    i = index(line, ".{")
    where = substr(line, 1, i - 1)
    gsub(/\./, "/", where)
    if (!i && split(line, pair, " ") == 3 && pair[2] == "as") {
        gsub(/\./, "/", pair[1])
        imported[path, pair[3]] = "crates/" crate pair[1] ".antt"
        return
    }
    line = substr(line, i + 2)
    sub(/}.*/, "", line)
    n = split(line, names, ",")
    for (i = 1; i <= n; i++) {
        split(names[i], pair, " ")
        imported[path, pair[2] == "as" ? pair[3] : pair[1]] = "crates/" crate where ".antt" SUBSEP pair[1]
    }
}

# The parameters `(a b : T)` at the front of a declaration, after those of its module.
function parameters(key, s,    n, args, i, j, m, names, type) {
    n = arguments("x " s, args)
    for (i = 1; i <= n && args[i] !~ /^ :/; i++) {
        if (args[i] !~ /^ \(/)
            continue
        type = args[i]
        sub(/^.* : /, "", type)
        sub(/ \)$/, "", type)
        m = split(bare(args[i]), names, " ")
        for (j = 1; j <= m && names[j] != ":"; j++) {
            parameter[key, ++arity[key]] = names[j]
            ofType[key, arity[key]] = type
        }
    }
}

# Reads the declarations of a file of specs. A line that is indented more than the item before it belongs to that item.
function load(path,    line, item, at, indent, open) {
    if (path in loaded)
        return
    loaded[path] = 1
    current = shared = ""
    dataAt = -1
    while ((getline line < path) > 0) {
        sub(/(^|[ ]+)-- .*$/, "", line)
        if (line ~ /^ *$/)
            continue
        match(line, /^ */)
        indent = RLENGTH
        if (item != "" && (indent > at || line ~ /^ *}/) && !open) {
            item = item " " line
            continue
        }
        take_in(path, item, at)
        item = line
        at = indent
        open = line ~ / where$/
    }
    take_in(path, item, at)
    close(path)
}

function take_in(path, item, at,    s, name, key, n, parts, i) {
    s = normal(item)
    if (at <= sharedAt)
        shared = ""
    if (item ~ /^ *(pub )?use /) {
        import(path, item)
        return
    }
    if (at > dataAt && dataAt >= 0) {
        sub(/^ (pub )?/, "", s)
        sub(/ .*/, "", s)
        kind[path, s] = "constructor"
        return
    }
    dataAt = s ~ /^ (pub )?data / ? at : -1
    if (s ~ /^ module /) {
        shared = s
        sharedAt = at
        current = ""
        sub(/^ module [^ ]+/, "", shared)
        return
    }
    if (current != "" && at > recordAt && kind[current] == "record") {
        i = index(s, " : ")
        text[current] = text[current] "\n" substr(s, i + 2)
        name = substr(s, 1, i - 1)
        sub(/^ pub /, "", name)
        fields[path, recordName] = fields[path, recordName] " " name
        return
    }
    while (sub(/^ (abbrev|unfoldable|pub|opaque|private|mutual) /, " ", s)) {}
    name = s
    sub(/^ (record )?/, "", name)
    sub(/ .*/, "", name)
    key = path SUBSEP name
    if (s ~ /^ record /) {
        recordName = name
        structs[name] = structs[name] " " path
    }
    if (s ~ /^ record / || (s ~ "^ [^ ]+ :" && !(key in kind))) {
        kind[key] = s ~ /^ record / ? "record" : "definition"
        inside[key] = shared == "" ? key : path SUBSEP shared
        parameters(key, shared)
        offset[key] = arity[key] + 0
        sub(/^ (record )?[^ ]+/, "", s)
        if (kind[key] == "record")
            parameters(key, s)
        else {
            sub(/^ : /, " ", s)
            n = cut(s, "→", parts)
            for (i = 1; i < n; i++)
                if (parts[i] !~ /^ [{]/) {
                    ofType[key, ++arity[key]] = parts[i]
                    sub(/^ /, "", ofType[key, arity[key]])
                }
        }
        current = key
        recordAt = at
    } else if (key in kind) {
        text[key] = text[key] "\n" s
        # `take v.len v.out` and `drop v.len v.out` read a struct whole between them
        if (arity[key] == 1 && s ~ /^ [^ ]+ [^ ]+ = (take|drop) [^ ]+\.[a-z]+ [^ ]+$/) {
            views[ofType[key, 1]] = views[ofType[key, 1]] " " name
            viewed[key]
        }
    }
}

# ---- Functions

# The `ensures` clauses of a head, all of them held at once. A starred one speaks of memory, and fixes nothing.
function promised(head,    i, depth, c, out) {
    while (match(head, / ensures( [a-z_0-9]+)? [{]/)) {
        head = substr(head, RSTART + RLENGTH - 1)
        depth = 0
        for (i = 1; i <= length(head); i++) {
            c = substr(head, i, 1)
            depth += (c == "{") - (c == "}")
            if (!depth)
                break
        }
        out = out (out == "" ? "" : " × ") "(" substr(head, 2, i - 2) ")"
        head = substr(head, i + 1)
    }
    return out
}

function judge(path, head, self,    crate, name, lent, s, parts, promise, f, type) {
    crate = path
    sub(/^crates\//, "", crate)
    sub(/\/src\/lib\.rt$/, "", crate)
    sub(/\.rt$/, "", crate)
    gsub(/\/src\/|\//, "::", crate)
    name = head
    sub(/^.*[^a-z]fn /, "", name)
    sub(/[^A-Za-z0-9_].*/, "", name)
    print crate "::" name
    promise = promised(head)
    if (promise == "") {
        print crate "::" name ": no ensures"
        return
    }
    s = head
    sub(/ (requires|ensures)\*? .*/, "", s)
    type = s
    sub(/.*\) -> /, "", type)
    gsub(/Self/, self, type)
    okType = errType = ""
    if (type ~ /^Result</ && split(type, parts, ", ") == 2) {
        okType = substr(parts[1], 8)
        errType = parts[2]
        sub(/> *$/, "", errType)
    }
    f = fixed(normal(promise), path)
    if (s ~ /\) -> /) {
        type = s
        sub(/.*\) -> /, "", type)
        sub(/ +$/, "", type)
        gsub(/Self/, self, type)
        if (!covered("result", type, f))
            print crate "::" name ": the result"
        if (type ~ /&'/ && lenders(s, self, type) > 1 && f !~ / result\.(ref_)?ptr /)
            print crate "::" name ": where the result lies"
    }
    if (s ~ /&('[a-z]+ )?mut self[,)]/ && !covered("self.new", self, f))
        print crate "::" name ": self afterwards"
    while (match(s, /[a-z_0-9]+: &('[a-z]+ )?mut /)) {
        lent = substr(s, RSTART, RLENGTH)
        sub(/:.*/, "", lent)
        s = substr(s, RSTART + RLENGTH)
        type = s
        sub(/[,)].*/, "", type)
        # What a result goes on borrowing is what the result shows, if it has the very reference.
        if (!covered(lent ".new", type, f) && !(f ~ / result[.a-z_]*\.ghost_name / && index(f, " " lent ".entry.ghost_name ")))
            print crate "::" name ": " lent " afterwards"
    }
}

# Of how many slices may a result be a part? Of those of its lifetime that the head names, and of those of its type that a struct holds
# which is lent for that lifetime, or is `self`.
function lenders(s, self, type,    life, what, struct, end, i, out) {
    match(type, /&'[a-z]+ (mut )?/)
    what = substr(type, RSTART + RLENGTH)
    life = substr(type, RSTART + 1, RLENGTH - 1)
    sub(/ .*/, "", life)
    match(what, /^\[?[A-Za-z0-9_]+\]?/)
    what = "&" substr(what, 1, RLENGTH)
    # a parameter may be a closure, with an arrow of its own
    while (i = index(substr(s, end + 1), ") -> "))
        end += i
    s = substr(s, 1, end)
    out = times(s, "&" life " ")
    if (s ~ /[(& ]self[,)]/)
        out += times(lends[self], what)
    for (struct in lends)
        out += times(s, struct "<" life ">") * times(lends[struct], what)
    return out
}

# How often a text stands in another.
function times(s, t,    n, i) {
    for (n = 0; i = index(s, t); n++)
        s = substr(s, i + length(t))
    return n
}

# The heads of a source file's public functions, and the fields of its structs.
FNR == 1 {
    head = ""
    struct = ""
}
{
    sub(/[ ]*\/\/.*/, "")
}
/^ *ghost use / {
    import(FILENAME, $0)
}
/^(pub )?struct [A-Za-z]+(<[^>]*>)? *[{]/ {
    struct = $0
    sub(/^(pub )?struct /, "", struct)
    sub(/(<[^>]*>)? *[{].*/, "", struct)
    structs[struct] = structs[struct] " " FILENAME
    next
}
struct != "" && /^}/ {
    struct = ""
}
# A ghost field is a fact over the others.
struct != "" && /:/ && !/^ *(pub )?ghost / {
    field = $0
    sub(/:.*/, "", field)
    sub(/^ *(pub )?/, "", field)
    fields[FILENAME, struct] = fields[FILENAME, struct] " " field
    field = $0
    gsub(/&'[a-z]+ (mut )?/, "\\&", field)
    lends[struct] = lends[struct] field
}
/^impl/ {
    self = $0
    sub(/ *[{].*/, "", self)
    sub(/.* for /, "", self)
    sub(/^impl(<[^>]*>)? */, "", self)
    sub(/<.*/, "", self)
}
/^}/ {
    self = ""
}
/^ *pub (const |unsafe )*(extern "C" )?fn / {
    head = " "
}
head != "" {
    head = head " " $0
    if ($0 ~ /^ *[{]$/ || ($0 ~ /[{]$/ && head !~ / (ensures|requires)\*? /)) {
        heads[++count] = head
        source[count] = FILENAME
        selves[count] = self
        head = ""
    }
}
END {
    for (i = 1; i <= count; i++)
        judge(source[i], heads[i], selves[i])
}
