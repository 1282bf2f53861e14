# Turns a capture into a script, line by line. bin/capture calls it, with these variables:
#   from     hid-recorder, usbmon, hex or binary; empty: by the first line that tells
#   ticks    how many ticks a request waits
#   tick     the seconds of a tick; 0: no lines `tick`
#   device   of usbmon text, BUS:DEVICE; empty: every one
# Binary input is a byte a line in hexadecimal.

BEGIN {
    digits = "0123456789ABCDEF"
    size["10"] = 7
    size["11"] = 20
    size["20"] = 15
    size["21"] = 32
    longest = 256 # the bytes that a line of a script may have
    hex_byte = "^[0-9A-Fa-f][0-9A-Fa-f]$"
    script_word = "^(take|request|cancel|tick|switch|get-paired|led|list|read|frame|mouse|dump)$"
    usbmon_line = "^[0-9a-f]+ [0-9]+ [SCE] [CZIB][io]:[0-9:]+ "
    dump_line = "^00000000?:? " # xxd, od and hexdump, at offset 0: no report begins so
    split(device, part, ":")
    if (device != "") device = part[1] + 0 ":" part[2] + 0
}

{ sub(/\r$/, "") }
NR == 1 && from != "binary" { sub(/^\357\273\277/, "") } # the mark that some editors put in front of UTF-8
from == "binary" { byte(toupper($1)); fflush(); next }
/^[ \t]*$/ { next }
/^[ \t]*#/ { sub(/^[ \t]+/, ""); print; fflush(); next }
from == "" { from = form_of($0) }
from == "" && $1 ~ script_word { unused("line", "already a line of a script; give the file to replay"); next }
from == "" { unused("line", "in no known form"); next }
from == "hid-recorder" { recorded() }
from == "usbmon" { monitored() }
from == "hex" { typed() }
from == "dump" { unused("line", "of a dump with offsets; give the bytes themselves (`xxd -r` makes them of a dump by xxd)") }
{ fflush() }

END {
    if (left > 0) unused("report", "cut short by the end", start)
    summary()
    if (calls == 0) exit 1
}

function form_of(line) {
    if (line ~ /^[ERNIPD]: /) return "hid-recorder"
    if (line ~ usbmon_line) return "usbmon"
    if (line ~ dump_line) return "dump"
    if (bytes_of(line) != "") return "hex"
    return ""
}

# ---- the forms

# E: TIME COUNT BYTES. The other lines of hid-recorder describe the device.
function recorded(    i, bytes) {
    if ($1 != "E:") {
        if ($1 !~ /^[RNIPD]:$/) unused("line", "not a line of hid-recorder")
        return
    }
    for (i = 4; i <= NF; i++) {
        if ($i !~ hex_byte) { unused("line", "bytes that are not two hexadecimal digits"); return }
        bytes = bytes " " toupper($i)
    }
    if ($3 != NF - 3) { unused("line", "another number of bytes than it says"); return }
    if (NF - 3 > longest) { unused("line", "more than " longest " bytes"); return }
    passed($2)
    take(bytes)
}

# TAG TIME S|C|E ADDRESS STATUS LENGTH = WORDS; of a control transfer that is submitted, s and five words of setup
# are in STATUS's place. A report comes with the completion of an interrupt transfer in; one goes out with the
# submission of an interrupt transfer out, or of a control transfer out that is SET_REPORT.
function monitored(    at, bytes, n, where, set_report) {
    if ($0 !~ usbmon_line) { unused("line", "not a line of usbmon text"); return }
    n = split($4, part, ":")
    where = n == 4 ? part[2] + 0 ":" part[3] + 0 : part[2] + 0
    if (device != "" && where != device) { unused("line", "another USB device than " device); return }
    at = $5 == "s" ? 11 : 6
    set_report = $4 ~ /^Co/ && $5 == "s" && $6 == "21" && $7 == "09"
    if (!($3 == "C" && $4 ~ /^Ii/) && !($3 == "S" && ($4 ~ /^Io/ || set_report)) || $(at + 1) != "=") {
        unused("line", "no report in it")
        return
    }
    bytes = words_from(at + 2)
    if (length(bytes) != 3 * $at) { unused("line", "part of the bytes only"); return }
    if ($3 == "C" && !is_report(bytes)) { unused("line", "the id or the length of another interface's report"); return }
    if (!(where in seen)) { seen[where] = 1; devices = devices (devices == "" ? "" : ", ") where; device_count++ }
    passed(seconds($2))
    if ($3 == "C") take(bytes)
    else sent(bytes)
}

# One report in hexadecimal.
function typed(    bytes) {
    if ($0 ~ /^[ \t]*[0-9A-Fa-f][0-9A-Fa-f][0-9A-Fa-f][0-9A-Fa-f]+:[ \t]/) {
        unused("line", "an offset in front; give the file of bytes itself")
        return
    }
    bytes = bytes_of($0)
    if (bytes == "") { unused("line", "not bytes in hexadecimal"); return }
    if (length(bytes) > 3 * longest) { unused("line", "more than " longest " bytes"); return }
    if (!is_report(bytes) && !odd++) first_odd = NR
    take(bytes)
}

# One byte of whole reports end to end: a report is as long as its id says.
function byte(hh) {
    if (left == 0) {
        if (!(hh in size)) { unused("byte", "no report begins there", NR - 1); return }
        start = NR - 1
        left = size[hh]
        report = ""
    }
    report = report " " hh
    left--
    if (left == 0) take(report)
}

# ---- bytes: each with a space in front, in capitals

function bytes_of(text,    word, n, i, bytes, marked) {
    gsub(/[][{}();,:-]/, " ", text)
    gsub(/\\[xX]/, " 0x", text)
    n = split(text, word, " ")
    for (i = 1; i <= n; i++) {
        marked = sub(/^0[xX]/, "", word[i])
        if (marked && length(word[i]) == 1) word[i] = "0" word[i]
        if (word[i] !~ /^[0-9A-Fa-f]+$/ || length(word[i]) % 2 == 1) return ""
        bytes = bytes spread(word[i])
    }
    return bytes
}

function words_from(i,    bytes) {
    for (; i <= NF; i++) bytes = bytes spread($i)
    return bytes
}

function spread(run,    i, bytes) {
    for (i = 1; i < length(run); i += 2) bytes = bytes " " substr(run, i, 2)
    return toupper(bytes)
}

function is_report(bytes,    id) {
    id = substr(bytes, 2, 2)
    return id in size && length(bytes) == 3 * size[id]
}

function decimal(hh) {
    return 16 * (index(digits, substr(hh, 1, 1)) - 1) + index(digits, substr(hh, 2, 1)) - 1
}

# ---- the script

function take(bytes) {
    print "take" bytes
    calls++
    taken++
}

# What went out: the call that writes it, or a comment where no call does.
function sent(bytes,    b, n, rest) {
    n = split(bytes, b, " ")
    calls++
    if (is_report(bytes) && b[1] ~ /^1/) {
        print "request " decimal(b[2]) " " b[3] " " b[4] " " ticks " 0 " n substr(bytes, 13)
    } else if (bytes ~ /^ 20 FF 80 .. ..( 00)+$/ && is_report(bytes)) {
        print "switch " b[4] " " b[5] " 0 " n
    } else if (bytes ~ /^ 20 FF 81( 00)+$/ && is_report(bytes)) {
        print "get-paired 0 " n
    } else if (bytes ~ /^ 20 .. 0E ..( 00)+$/ && is_report(bytes)) {
        print "led " decimal(b[2]) " " b[4] " 0 " n
    } else {
        calls--
        print "# to the receiver, and no call:" bytes
        comments++
        return
    }
    outgoing++
}

# Time, as a comment, and the ticks since the first time. usbmon counts seconds up to 4096 and begins again; a time that
# goes back by less is no time that passed.
function passed(time,    step) {
    if (timed) {
        step = time - before
        if (from == "usbmon" && step < -2048) step += 4096
        if (step < 0) {
            if (!backward) backward = NR
            step = 0
        }
        clock += step
    }
    timed = 1
    before = time
    while (tick > 0 && (made + 1) * tick <= clock + 0.0000005) { print "tick"; made++ }
    print "# " time
}

# Microseconds as hid-recorder writes a time.
function seconds(microseconds) {
    while (length(microseconds) < 12) microseconds = "0" microseconds
    return substr(microseconds, 1, length(microseconds) - 6) "." substr(microseconds, length(microseconds) - 5)
}

# ---- what was not used

function unused(what, why, offset,    key) {
    key = what " " why
    if (!(key in first)) { reason[++reasons] = key; first[key] = what == "line" ? "line " NR : "at offset " offset }
    many[key]++
}

function count(n, thing) {
    return n + 0 " " thing (n == 1 ? "" : "s")
}

function say(text) {
    print "capture: " text >"/dev/stderr"
}

function summary(    i, key, at) {
    say((from == "" ? "no known form" : from) ": " count(taken, "report") " from the receiver, " count(outgoing, "call") " to it, " count(comments, "frame") " to it that " (comments == 1 ? "is" : "are") " no call")
    for (i = 1; i <= reasons; i++) {
        key = reason[i]
        at = index(key, " ")
        say("not used: " many[key] " " substr(key, 1, at - 1) (many[key] == 1 ? ", " : "s, the first ") first[key] ":" substr(key, at))
    }
    if (odd) say("not whole: " count(odd, "report") (odd == 1 ? ", line " : ", the first line ") first_odd ": another length than the id has, or no such id, which replay refuses; a line is to be one report")
    if (device_count > 1) say("reports of " device_count " USB devices are mixed: " devices "; choose one with --device")
    if (tick > 0 && !timed) say("this form has no times: no tick was written")
    if (tick > 0 && backward) say("the time goes back, first at line " backward ": no tick was written for such a step")
    if (calls == 0) say("nothing to replay was found; `capture --help` has the forms")
}
