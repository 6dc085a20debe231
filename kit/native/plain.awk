# Of the text of a module: the same text, in which `row` stands for several values as one where a function gives them back and where they are
# taken or loaded, and nothing for the one comparison of a pointer that is sound. What is then left can be told by its words.
#
# A function for C begins by putting the address 4096 in the place of a null pointer, of a slice with no bytes: four lines for each slice. The
# first compares with null, which is 0 on every processor.

BEGIN { row = "[{] (ptr|i[0-9]+)(, (ptr|i[0-9]+))* [}]" }

{ line[NR] = $0 }

# The comparison, the number that it is, that times 4096, and the pointer moved by so much.
function begins_with_null(k,    one, two, three, pointer) {
    split(line[k], one, " ")
    split(line[k + 1], two, " ")
    split(line[k + 2], three, " ")
    pointer = substr(one[6], 1, length(one[6]) - 1)
    return pointer ~ /^%a[0-9]+$/ && line[k] == "  " one[1] " = icmp eq ptr " pointer ", null" &&
        line[k + 1] == "  " two[1] " = zext i1 " one[1] " to i64" &&
        line[k + 2] == "  " three[1] " = mul i64 " two[1] ", 4096" &&
        line[k + 3] ~ /^  %[^ ]+ = / &&
        substr(line[k + 3], index(line[k + 3], " = ")) == " = getelementptr i8, ptr " pointer ", i64 " three[1]
}

END {
    for (k = 1; k <= NR; k++) {
        if (line[k] ~ /^define /)
            for_c = line[k] ~ /^define noundef i64 @krossvil_/
        if (for_c && begins_with_null(k)) {
            print ""
            continue
        }
        if (line[k] ~ "^(define internal (noundef )?|  ret |  %[^ ]+ = (call|load|extractvalue) )" row)
            sub(row, "row", line[k])
        print line[k]
    }
}
