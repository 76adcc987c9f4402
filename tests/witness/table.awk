# Reads pairs.txt, then the counts that 'witness --pairs' printed for every sheet. Prints the table, and fails on a difference, on what is wanted and missing, and on what isn't known.

function fail(words) {
    print "differential: " words
    failures++
}

# The words of a line after the first colon and blank.
function after_colon(line) {
    return substr(line, index(line, ": ") + 2)
}

/^#/ || NF == 0 { next }

# pairs.txt
FNR == NR {
    name = $3
    sub(/:$/, "", name)
    if ($1 == "occurs") {
        row[++rows] = $2 " " name
        for (i = 4; i <= NF; i++) {
            wanted[$2 " " name " " $i] = "pair"
            if ($i > highest)
                highest = $i + 0
        }
    } else if ($1 == "meets")
        wanted["reason " name " " $2 " " after_colon($0)] = "reason"
    else if ($1 == "edge") {
        edge[++edges] = "edge " name " " $2 " " after_colon($0)
        wanted[edge[edges]] = "edge"
    } else if ($1 == "never") {
        never["step " name " " $2] = never["deliver " name " " $2] = 1
    } else
        fail("pairs.txt has a line that isn't known: " $0)
    next
}

# the counts
{
    key = $1 " " $2 " " $3
    if ($1 == "records") {
        records += $4
        next
    }
    times = $4
    if ($1 == "reason" || $1 == "edge") {
        $1 = $2 = $3 = $4 = ""
        sub(/^ +/, "")
        key = key " " $0
    }
    found[key] += times
}

END {
    printf "%-22s", "refusal number"
    for (number = 0; number <= highest; number++)
        printf "%8d", number
    print ""
    for (i = 1; i <= rows; i++) {
        printf "%-22s", row[i]
        for (number = 0; number <= highest; number++) {
            key = row[i] " " number
            printf "%8s", key in found ? found[key] : key in wanted ? "MISSING" : key in never ? "never" : "."
        }
        print ""
    }
    print ""
    for (i = 1; i <= edges; i++) {
        words = edge[i]
        split(edge[i], part, " ")
        sub(/^edge [^ ]+ [0-9]+ /, "", words)
        printf "%8d times %s, %s: %s\n", edge[i] in found ? found[edge[i]] : 0, part[2], words, part[3] == 0 ? "accepted" : "refused with " part[3]
    }
    print ""
    for (key in wanted)
        if (!(key in found))
            fail("never occurred: " key)
    for (key in found)
        if (!(key in wanted) && key !~ /^edge /)
            fail("occurred, and pairs.txt does not know it: " key)
    for (key in found)
        if (key ~ /^sheet /)
            sheets += found[key]
    if (differences > 0)
        fail(differences " of " sheets " sheets give different listings")
    if (failures > 0) {
        print "differential: failed"
        exit 1
    }
    printf "differential: %d sheets, %d records, no difference\n", sheets, records
}
