# Of the text of a module: prints each slot that is loaded or stored as a pointer in one place and as a number in another, and fails if there
# is one. A slot is a root and a constant offset: the root is what was allocated, given or loaded. What a function does with the memory that
# it is given is done by its callers too, and what is done with a copy is done with the original; so facts are carried along, from callee to
# caller and between the two ends of a copy, until there are no more. Facts of a root stand in a list, `places[root]`, as "offset type".

function fail(what) { print FNR ": " what ": " $0; failed = 1 }

function add(root, offset, type,    key) {
    key = root SUBSEP offset " " type
    if (key in known)
        return
    known[key] = 1
    places[root] = places[root] offset " " type "\n"
    changed = 1
}

# The root and the offset of a value in this function.
function root_of(value) { return value in root ? root[value] : name SUBSEP value }
function offset_of(value) { return value in offset ? offset[value] : 0 }

function value(word) { sub(/[,)].*/, "", word); return word }

function access(type, place) {
    if (type == "ptr" && root_of(place) in elsewhere)
        fail("a pointer at a place that is calculated")
    add(root_of(place), offset_of(place), type)
}

/^define / {
    match($0, /@("[^"]+"|[a-z0-9_]+)/)
    name = substr($0, RSTART, RLENGTH)
    split("", root)
    split("", offset)
}

/ = getelementptr / {
    from = $(NF - 2)
    from = value(from)
    if ($NF ~ /^-?[0-9]+$/ && $0 ~ /getelementptr (inbounds nuw )?i8, ptr /) {
        root[$1] = root_of(from)
        offset[$1] = offset_of(from) + $NF
    } else
        elsewhere[name SUBSEP $1] = 1
}

# Several values at once, each at its own place: as far from the start where a pointer has 32 bits as where it has 64.
function access_row(types, place,    count, k, at, other, each, type) {
    count = split(types, each, /, /)
    at = other = 0
    for (k = 1; k <= count; k++) {
        type = each[k]
        at = up_to(at, bytes_of(type))
        other = up_to(other, type == "ptr" ? 4 : bytes_of(type))
        if (at != other)
            fail("a place that a pointer of 32 bits moves")
        add(root_of(place), offset_of(place) + at, type)
        if (type == "ptr" && root_of(place) in elsewhere)
            fail("a pointer at a place that is calculated")
        at += bytes_of(type)
        other += type == "ptr" ? 4 : bytes_of(type)
    }
}

function up_to(at, size) { return at % size ? at + size - at % size : at }

/ = load [{]/ {
    match($0, /[{] [^}]* [}]/)
    types = substr($0, RSTART + 2, RLENGTH - 4)
    split(substr($0, RSTART + RLENGTH), words, " ")
    access_row(types, value(words[3]))
    next
}
/ = load / { access(value($4), value($6)) }
/^  store / { access($2, value($5)) }
/ = (phi|select) .*ptr/ { fail("a pointer that is chosen") }
/ call .*@llvm\.mem/ {
    split($0, words, /[(,] */)
    for (k in words)
        sub(/^(ptr|i64) /, "", words[k])
    if ($0 !~ /@llvm\.memmove/)
        next
    if (words[4] !~ /^[0-9]+$/)
        fail("a copy of a length that is calculated")
    copies++
    copy_to[copies] = root_of(words[2])
    copy_from[copies] = root_of(words[3])
    shift[copies] = offset_of(words[3]) - offset_of(words[2])
    start[copies] = offset_of(words[2])
    size[copies] = words[4]
    next
}
/ call .*@/ {
    match($0, /@("[^"]+"|[a-z0-9_]+)\(.*/)
    callee = substr($0, RSTART, RLENGTH)
    arguments = callee
    sub(/\(.*/, "", callee)
    sub(/^[^(]*\(/, "", arguments)
    count = split(arguments, words, /, /)
    for (k = 1; k <= count; k++)
        if (words[k] ~ /^ptr /) {
            word = value(substr(words[k], 5))
            gives++
            given[gives] = root_of(word)
            given_at[gives] = offset_of(word)
            taken[gives] = callee SUBSEP "%a" (k - 1)
        }
}

# All facts of one root within a range, carried to another.
function carry(from, to, by, low, high,    list, count, k, fact) {
    count = split(places[from], list, "\n")
    for (k = 1; k < count; k++) {
        split(list[k], fact, " ")
        if (fact[1] >= low && fact[1] < high)
            add(to, fact[1] + by, fact[2])
    }
}

function carry_all(    k, low) {
    for (k = 1; k <= gives; k++)
        carry(taken[k], given[k], given_at[k], -1000000, 1000000)
    for (k = 1; k <= copies; k++) {
        low = start[k] + shift[k]
        carry(copy_to[k], copy_from[k], shift[k], start[k], start[k] + size[k])
        carry(copy_from[k], copy_to[k], -shift[k], low, low + size[k])
    }
}

function bytes_of(type) { return type == "ptr" ? 8 : type == "i1" ? 1 : substr(type, 2) / 8 }

function judge(root,    list, count, k, n, one, other) {
    count = split(places[root], list, "\n")
    for (k = 1; k < count; k++) {
        split(list[k], one, " ")
        for (n = 1; one[2] == "ptr" && n < count; n++) {
            split(list[n], other, " ")
            if (one[1] + 0 == other[1] + 0 && other[2] == "ptr")
                continue
            if (other[1] < one[1] + 8 && one[1] < other[1] + bytes_of(other[2])) {
                sub(SUBSEP, " ", root)
                print root " + " one[1] ": a pointer, and at " other[1] " " other[2]
                failed = 1
                return
            }
        }
    }
}

END {
    while (changed) {
        changed = 0
        carry_all()
    }
    for (place in places)
        judge(place)
    exit failed
}
