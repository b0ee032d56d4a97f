# join.awk: sorts the wrong programs of a crate into checks, so that each check tries several. Given crate=NAME, the crate's source files and
# then its edits, it prints a line for each edit: the number of the check that it goes into, 0 for one that is tried alone; its name; and the
# functions that it makes wrong, by the end of the prover's name for each.
#
# The prover judges function by function, and where one is not proved only because it calls another, it says so. Two edits go into one check
# where they make different functions wrong and none of these calls one of the other's, however far below: then what is said of each function is
# said of its own edit. An edit of a definition, or of what stands in no function, is tried alone. Calls are found by name, so that of two
# functions with one name both count.

# The function of a file in which the last byte of a text stands that begins at a place; 0 where it stands in none.
function holder(source, place, len,    k, last) {
    last = place - 1 + len - 1
    for (k = 1; k <= count; k++)
        if (file_of[k] == source && start[k] <= last && last <= end[k]) return k
    return 0
}
# The functions that a text calls.
function called(rest,    name, list) {
    while (match(rest, /[A-Za-z0-9_]+\(/)) {
        name = substr(rest, RSTART, RLENGTH - 1)
        rest = substr(rest, RSTART + RLENGTH)
        list = list named[name]
    }
    return list
}
function calls_of(k,    m, i, part) {
    m = split(called(substr(body[k], index(body[k], "(") + 1)), part, " ")
    for (i = 1; i <= m; i++) if (part[i] != k) calls[k, part[i]]
}
# What an edit's new text calls, its functions call below them.
function calls_anew(e,    x, m, i, j, part) {
    for (x = 1; x <= pairs[e]; x++) {
        m = split(called(after[e, x]), part, " ")
        for (i = 1; i <= m; i++) {
            anew[e, part[i]]
            for (j = 1; j <= count; j++) if ((part[i], j) in below) anew[e, j]
        }
    }
}
function reach(from, k,    i) {
    for (i = 1; i <= count; i++)
        if ((k, i) in calls && !((from, i) in below)) {
            below[from, i]
            reach(from, i)
        }
}
# Whether two edits cannot be in one check.
function clash(a, b,    x, y, n, m, part, other) {
    n = split(made_wrong[a], part, " ")
    m = split(made_wrong[b], other, " ")
    for (x = 1; x <= n; x++)
        for (y = 1; y <= m; y++)
            if (part[x] == other[y] || (part[x], other[y]) in below || (other[y], part[x]) in below \
                || (a, other[y]) in anew || (b, part[x]) in anew) return 1
    n = split(brings[a], part, "\n")
    m = split(brings[b], other, "\n")
    for (x = 1; x < n; x++)
        for (y = 1; y < m; y++)
            if (part[x] == other[y]) return 1
    for (x = 1; x <= pairs[a]; x++)
        for (y = 1; y <= pairs[b]; y++)
            if (at[a, x] == at[b, y] && (index(after[a, x], before[b, y]) || index(after[b, y], before[a, x]))) return 1
    return 0
}

FILENAME ~ /\.rt$/ {
    if (FNR == 1) {
        source = FILENAME
        sub(/^.*\/src\//, "src/", source)
        module = source
        sub(/^src\//, "", module)
        sub(/\.rt$/, "", module)
        module = module == "lib" || module == "main" ? crate : crate "::" module
        type = ""
        inside = size = 0
    }
    if (/^impl /) { type = $2; sub(/[^A-Za-z0-9_].*/, "", type) }
    if (!inside && match($0, /^ *(pub(\(crate\))? )?(extern "C" )?fn /)) {
        inside = 1
        count++
        name = substr($0, RSTART + RLENGTH)
        sub(/[^A-Za-z0-9_].*/, "", name)
        indent = $0
        sub(/[^ ].*/, "", indent)
        file_of[count] = source
        start[count] = size
        shown[count] = indent == "" ? module "::" name : "::" type "::" name
        named[name] = named[name] " " count
    }
    if (inside) {
        body[count] = body[count] "\n" $0
        if ($0 == indent "}") { inside = 0; end[count] = size + length($0) }
    } else if ($0 == "}") type = ""
    text[source] = text[source] $0 "\n"
    size += length($0) + 1
    next
}
FNR == 1 {
    edits++
    edit[edits] = FILENAME
    sub(/^.*\//, "", edit[edits])
    sub(/\.edit$/, "", edit[edits])
    source = ""
}
/^file: / { source = substr($0, 7); next }
/^old: / {
    pairs[edits]++
    at[edits, pairs[edits]] = source
    before[edits, pairs[edits]] = substr($0, 6)
}
# Two edits do not fit into one file where they bring a function of the same name, change the same `use` line, or one brings what the other
# is to replace.
/^new:/ && source ~ /^src\// {
    after[edits, pairs[edits]] = substr($0, 6)
    rest = $0
    while (match(rest, /fn [a-z0-9_]+/)) {
        brings[edits] = brings[edits] substr(rest, RSTART, RLENGTH) "\n"
        rest = substr(rest, RSTART + RLENGTH)
    }
}
/^old: / && source !~ /^proofs\// {
    old = substr($0, 6)
    place = index(text[source], old)
    if (old ~ /^(ghost )?use /) brings[edits] = brings[edits] source " " old "\n"
    else if (place && (k = holder(source, place, length(old)))) made_wrong[edits] = made_wrong[edits] " " k
    else alone[edits]
}
END {
    for (k = 1; k <= count; k++) calls_of(k)
    for (k = 1; k <= count; k++) reach(k, k)
    for (e = 1; e <= edits; e++) calls_anew(e)
    for (e = 1; e <= edits; e++) {
        if (e in alone || made_wrong[e] == "") { print 0, edit[e]; continue }
        for (c = 1; c <= checks; c++) {
            m = split(members[c], part, " ")
            for (i = 1; i <= m; i++) if (clash(e, part[i])) break
            if (i > m) break
        }
        if (c > checks) checks = c
        members[c] = members[c] " " e
        line = c " " edit[e]
        m = split(made_wrong[e], part, " ")
        for (i = 1; i <= m; i++) line = line " " shown[part[i]]
        print line
    }
}
