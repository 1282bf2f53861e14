# Reads a script and writes two things: to the file `calls`, the script with lines added, for replay to answer; to the
# file `lines`, for each answer that replay will give, what it is the answer to:
#   call NUMBER LINE COMMENTS    a line of the script, with the comment lines before it
#   more                         a further line of the same answer
#   mouse                        an added line: the movement of the report before it
#   records NUMBER               an added `dump` after a report or a store that is read: a port's line each
#   end COMMENTS                 the added `dump` at the end: a port's line each
# Fields are parted by the byte 1F; so are comment lines, which come last.

BEGIN {
    part = "\037"
    ports = 7
}

{ gsub(part, "?") }
/^\r?$/ { next }
/^#/ { comments = comments part shown($0); next }
{
    record = "call" part NR part shown($0) comments
    added = ""
    comments = ""
    if ($0 ~ /^ *dump *\r?$/) for (i = 1; i < ports; i++) record = record "\n" "more"
    if ($1 == "take") add()
    else if ($1 == "restore") dump()
    print record >lines
    fflush(lines)
    print $0 added >calls
    fflush(calls)
}

END {
    record = "end" comments
    for (i = 1; i < ports; i++) record = record "\n" "end"
    print record >lines
    print "dump" >calls
    close(lines)
    close(calls)
}

function shown(line) {
    sub(/\r$/, "", line)
    return line
}

# The payload of a mouse report is the seven bytes after its type. What changes a record is no radio report.
function add(    i) {
    if ($2 ~ /^2[01]$/ && $4 == "02") {
        record = record "\n" "mouse"
        added = "\n" "mouse"
        for (i = 5; i <= 11 && i <= NF; i++) added = added " " shown($i)
    } else if ($2 ~ /^1[01]$/ || $4 ~ /^4[0-2]$/) dump()
}

function dump(    i) {
    for (i = 1; i <= ports; i++) record = record "\n" "records" part NR
    added = "\n" "dump"
}
