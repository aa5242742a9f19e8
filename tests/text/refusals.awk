# Of a log of rt check: which declarations are refused, a line each, `PROOF DECLARATION`. PROOF is the function's folder below proofs/, as
# `walking/walk_step`, or a file of examples, definitions or laws, as `specs/Walks` or `proofs/Table`. A declaration that waits for another's is not
# refused for itself, and is left out; so is one that only names a goal, a step or a fact that the edit took away.

function put(file, declaration) {
    sub(/^\.\//, "", file)
    if (file !~ /^proofs\/.+\/(Proof|Answers|Invariants)\.antt$/)
        sub(/\.antt$/, "", file)
    else {
        sub(/\/[^\/]*$/, "", file)
        sub(/^proofs\//, "", file)
    }
    if (!seen[file, declaration]++)
        print file, declaration
}

match($0, /^[^ :]+\.antt:[0-9]+:[0-9]+: error: `[^`]+`: /) && !/ was not admitted \(| has no field | is not in scope| that can be named from here/ {
    file = declaration = substr($0, 1, RLENGTH)
    sub(/:.*/, "", file)
    sub(/^[^`]*`/, "", declaration)
    sub(/`.*/, "", declaration)
    put(file, declaration)
}
# A function without a proof file, or with one that leaves a goal open.
match($0, /^fn [^ ]+: .*[ (][^ ]+\/Answers\.antt; `search` did not prove `/) {
    file = goals = $0
    sub(/\/Answers\.antt; .*/, "/Answers.antt", file)
    sub(/.*[ (]/, "", file)
    sub(/.*; `search` did not prove /, "", goals)
    n = split(goals, goal, "`")
    for (i = 2; i < n; i += 2)
        put(file, goal[i])
}
