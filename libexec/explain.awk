# Says what replay's answers mean. Lines come in pairs: what is answered, as explain-calls.awk describes it, and one
# line of replay's answer. Nothing here decides an answer: names and sentences only.

BEGIN {
    part = "\037"
    ports = 7
    digits = "0123456789ABCDEF"
    name_refusals()
    name_kinds()
    name_errors()
    name_rest()
}

NR % 2 == 1 && ended == ports { more = 1; exit 1 }
NR % 2 == 1 {
    parts = split($0, field, part)
    what = field[1]
    if (what == "call") {
        settle()
        begin()
    }
    next
}
$0 == "" { lost = 1; exit 1 }
what == "call" { answered($0) }
what == "more" { print "    " $0 }
what == "mouse" { if (first == "radio") explain("moved: " movement($0)) }
what == "records" { changed($0) }
what == "end" { at_end($0) }
{ fflush() }

END {
    if (more) say("replay answered more than it was asked")
    else if (lost || ended != ports) say("replay ended early" (number ? ", at line " number " or after it" : ""))
    if (more || ended != ports) exit 1
    summary()
}

function say(text) {
    print "explain: " text >"/dev/stderr"
}

# ---- a call and its answer

function begin(    i) {
    number = field[2]
    call = field[3]
    for (i = 4; i <= parts; i++) print "    " field[i]
    print number ": " call
    words = split(call, word, " ")
    lines++
}

function answered(answer) {
    if (answer ~ /^line [0-9]+ is no call$/) answer = "line " number " is no call"
    print "    " answer
    last = answer
    first = answer
    sub(/[ :=].*/, "", first)
    if (first == "line") first = "no call"
    if (first == "port") first = "dump"
    kinds[first]++
    if (first == "refused") refused(answer)
    else if (first == "wrote") wrote(answer)
    else if (first == "ended") ticked(answer)
    else if (first == "moved") explain("moved: " movement(answer))
    else if (first == "restored") restored()
    else if (first == "no call") explain("docs/SCRIPTS.md has the calls; nothing happened")
    else if (first == "cancelled") { ways["cancelled"]++; explain(who(word[2]) " is no longer asked: " asking(word[2], word[3], word[4], asked[key(word[2], word[3], word[4])])) }
    else if (first == "report") explain(report_text(answer))
    else taken(answer)
}

function explain(text) {
    print "    = " text
}

function refused(answer,    n) {
    split(answer, sides, /[ :]/)
    n = sides[2]
    refusals[n]++
    explain("refused: " (n in refusal ? refusal[n] : "a number that docs/SCRIPTS.md has"))
    if (n == 7) unpaired_devices[decimal(word[3])] = 1
    if (n == 15) explain("its first line: " stored(1))
    if (n == 16) explain("line " value(answer, "line") ": " stored(value(answer, "line")))
    if (n == 17) explain("from " who(decimal(word[3])) ": " type_text(toupper(word[4])) ", after its payload " rest(5 + payload[toupper(word[4])]))
}

function wrote(answer,    k) {
    if (word[1] == "request") {
        k = key(word[2], word[3], word[4])
        asked[k] = rest(8)
        ways["accepted"]++
        explain("to " who(word[2]) ": " asking(word[2], word[3], word[4], asked[k]) "; waits for " count(word[5], "tick"))
    } else if (word[1] == "frame") explain("to " who(word[2]) ": " asking(word[2], word[3], word[4], rest(7)) "; nothing waits for its reply")
    else if (word[1] == "switch") explain("to the receiver: DJ reports of " devices_of(word[2]) "; " keep_alive(word[3]))
    else if (word[1] == "get-paired") explain("to the receiver: which devices are paired?")
    else if (word[1] == "led") explain("to " who(word[2]) ": keyboard LEDs " word[3])
    else if (word[1] == "list" || word[1] == "store") listing(answer)
}

function ticked(answer,    n, i, text) {
    split(answer, sides, " ")
    for (i = 2; i <= 8; i++) {
        if (sides[i] == 0) continue
        n += sides[i]
        text = text (text == "" ? "" : ", ") sides[i] " on " who(i == 8 ? 255 : i - 1)
    }
    ways["expired"] += n
    explain(n ? count(n, "request") " ended without a reply: " text : "time passed; no request ended")
}

# The listing or the store as text: the bytes from PLACE on.
function listing(answer,    i, n, text) {
    n = split(answer, sides, " ")
    for (i = 3 + word[2]; i < 3 + word[2] + sides[2] && i <= n; i++) text = text sprintf("%c", decimal(sides[i]))
    sub(/\n$/, "", text)
    gsub(/\n/, "\n    | ", text)
    print "    | " text
}

# ---- a store that is read

# What waited is gone, and no answer counts it: it is what was accepted and has not ended.
function restored(    i, n, lost, text) {
    for (i = 2; i <= words; i++) if (toupper(word[i]) == "0A" && i < words) text = text (n++ ? ", " : " ") decimal(word[i + 1]) - 48
    lost = ways["accepted"]
    for (i = 1; i <= way_count; i++) lost -= ways[way_order[i]]
    ways["lost"] += lost
    explain("the station is the store's: " (n ? "device" : "no device") (n > 1 ? "s" : "") text "; all else is as fresh; " (lost ? count(lost, "waiting request") " lost" : "no request waited"))
}

# A line of the store in the call, as far as a reader needs it to find its fault.
function stored(number,    i, line, text) {
    line = 1
    for (i = 2; i <= words && line < number; i++) if (toupper(word[i]) == "0A") line++
    for (; i <= words && toupper(word[i]) != "0A" && length(text) < 80; i++) text = text sign(toupper(word[i]))
    if (text == "" && i > words) return "there is none"
    if (i > words) return text ", without a newline"
    return (text == "" ? "it is empty" : text) (toupper(word[i]) == "0A" ? "" : " ..")
}

function sign(hh,    n) {
    n = decimal(hh)
    if (hh == "09") return "\\t"
    if (hh == "0D") return "\\r"
    if (hh == "5C") return "\\\\"
    return n >= 32 && n < 127 ? sprintf("%c", n) : "\\x" hh
}

# ---- what a report's answer means

# A stray report waits for the dump after it, which has what it did not answer.
function taken(answer,    port) {
    port = value(answer, "port")
    if (first == "reply") { ways["replied"]++; ways["dropped"] += value(answer, "dropped"); explain(who(port) " replies: " replied(answer, port)) }
    else if (first == "error") { ways["failed"]++; explain(failed(answer, port)) }
    else if (first == "plain") explain("notice from " who(port) ": " notice_text(answer))
    else if (first == "event") explain("event of " who(port) ": " event_text(answer, port))
    else if (first == "radio") explain("from " who(decimal(word[3])) ": " type_text(value(answer, "type")) ", " parameters(answer))
    else if (first == "unpaired") { ways["dropped"] += value(answer, "dropped"); explain(who(port) " is no longer paired; " dropped(answer)) }
    else if (first == "paired") {
        ways["dropped"] += value(answer, "dropped")
        explain(who(port) " is paired: model " value(answer, "wpid") ", sends " sends(value(answer, "reports")) "; " (value(answer, "more") == 1 ? "more devices follow" : "the last of the list") "; " dropped(answer))
    }
    else if (first == "empty-list") explain("the receiver has no paired device")
    else if (first == "link") explain(who(port) ": radio link " (answer ~ / up$/ ? "up" : "down"))
    else if (first == "other") explain("notification " value(answer, "type") " of " who(port) other_text(answer))
}

function replied(answer, port,    b2, b3, k, p) {
    b2 = value(answer, "byte2")
    b3 = value(answer, "byte3")
    k = key(port, b2, b3)
    p = parameters(answer)
    split(p, sides, " ")
    if (is_ping(b2, b3)) return "protocol version " decimal(sides[1]) "." decimal(sides[2]) ", ping byte " ping_byte(p) " as asked"
    if (b2 == "00" && b3 ~ /^0/) return feature_name(asked[k]) (sides[1] == "00" ? " is not there" : " has index " decimal(sides[1]))
    if (b3 ~ /^0/ && feature_at(port, b2) == "1000") return "battery: " battery(sides[1], sides[2], sides[3])
    if (serial_of(port, b2, b3, asked[k]) && value(answer, "length") == 16 && sides[1] == substr(asked[k], 1, 2)) return told(answer, serial_of(port, b2, b3, asked[k]), sides[2] sides[3] sides[4] sides[5])
    return p " to " asking(port, b2, b3, asked[k])
}

# A device's serial, beside what the last dump has of it.
function told(answer, device, serial,    held, text) {
    held = before(device, "serial")
    text = who(device) " has serial " serial
    if (before(device, "paired") == 0) return text ", and is not paired: the serial is not kept"
    if (held == "-") return text
    if (held == serial) return text ", as before"
    return text ", and had " held ": another device of the same model; " dropped(answer)
}

function failed(answer, port,    code, kind, k) {
    code = value(answer, "code")
    kind = value(answer, "kind")
    k = key(port, value(answer, "byte2"), value(answer, "byte3"))
    return who(port) " refuses " asking(port, value(answer, "byte2"), value(answer, "byte3"), asked[k]) ": error " code ", " error_text(kind, code)
}

function error_text(kind, code) {
    if ((kind, code) in error) return error[kind, code]
    return "which the documents do not name"
}

# Of a report that nothing waits for, its bytes are all there is. Where a request with its bytes 2 and 3 waits, it is a
# ping with another byte. The line is the port's, of the dump after the report.
function stray(line, port,    b2, b3, p, due) {
    b2 = toupper(word[4])
    b3 = toupper(word[5])
    p = is_ping(b2, b3) ? parameters(last) : ""
    due = waiting_with(line, b2, b3)
    if (due != "") explain(who(port) " replies to a ping with ping byte " ping_byte(p) "; the one that waits has " ping_byte(due) ", and goes on waiting")
    else if (b2 == "8F" || b2 == "FF") explain("no request waits for this from " who(port) ": error " toupper(word[7]) " to " asking(port, b3, toupper(word[6]), "") ", " error_text(b2, toupper(word[7])))
    else explain("no request waits for this from " who(port) ": a reply to " asking(port, b2, b3, p))
}

# The first three parameters of the request that waits with these bytes 2 and 3, or nothing.
function waiting_with(line, b2, b3,    i, n, p) {
    n = split(value(line, "places"), places, ",")
    for (i = 1; i <= n; i++) {
        split(places[i], p, ":")
        if (p[1] == b2 && p[2] == b3) return p[3] " " p[4] " " p[5]
    }
    return ""
}

function notice_text(answer,    b2) {
    b2 = value(answer, "byte2")
    return (b2 in notice ? notice[b2] : "sub id " b2) ", byte 3 " value(answer, "byte3") ", parameters " parameters(answer)
}

function event_text(answer, port,    b2, b3, feature, p) {
    b2 = value(answer, "byte2")
    b3 = value(answer, "byte3")
    feature = feature_at(port, b2)
    p = parameters(answer)
    split(p, sides, " ")
    if (feature == "1000" && b3 == "00") return "battery: " battery(sides[1], sides[2], sides[3])
    if (feature == "1D4B" && b3 == "00") return "wireless status: " (sides[1] == "01" ? "reconnected" : "status " sides[1]) (sides[2] == "01" ? ", wants to be set up again" : "") (sides[3] == "01" ? ", switched on" : "")
    return "number " substr(b3, 1, 1) " of feature index " decimal(b2) (feature == "" ? "" : " (" name_of[feature] ")") ": " p
}

function other_text(answer) {
    if (value(answer, "type") != "7F") return ""
    return word[5] == "01" ? ": error, no keep-alive came in time" : ": error " word[5]
}

function report_text(answer,    id) {
    id = value(answer, "id")
    return kind_of[id] " of " who(decimal(value(answer, "device"))) ", parameters " parameters(answer)
}

# ---- names

function who(port) {
    return port == 255 ? "the receiver" : "device " port
}

# A request in words, by its bytes 2 and 3 and its parameters.
function asking(port, b2, b3, p,    text) {
    b2 = toupper(b2)
    b3 = toupper(b3)
    if (b2 in register) text = register[b2] " " b3 (serial_of(port, b2, b3, p) ? " (serial of " who(serial_of(port, b2, b3, p)) ")" : "")
    else if (is_ping(b2, b3)) return "ping (protocol version)" (p == "" ? "" : " with ping byte " ping_byte(p))
    else if (b2 == "00" && b3 ~ /^0/) return "index of " feature_name(p)
    else text = "function " decimal("0" substr(b3, 1, 1)) " of feature index " decimal(b2) (feature_at(port, b2) == "" ? "" : " (" name_of[feature_at(port, b2)] ")") ", software id " decimal("0" substr(b3, 2, 1))
    return text (p == "" ? "" : " with " p)
}

function is_ping(b2, b3) {
    return b2 == "00" && b3 ~ /^1/
}

# The third parameter of a ping, which the reply repeats.
function ping_byte(p) {
    return substr(p, 7, 2)
}

# The device whose serial a request asks for, or 0.
function serial_of(port, b2, b3, p) {
    return port == 255 && b2 == "83" && b3 == "B5" && p ~ /^3[0-5]/ ? substr(p, 2, 1) + 1 : 0
}

function feature_name(p,    id) {
    if (p == "") return "a feature"
    id = toupper(substr(p, 1, 2) substr(p, 4, 2))
    return "feature " id (id in name_of ? " (" name_of[id] ")" : "")
}

# The known feature that a device has at an index, by the last dump.
function feature_at(port, b2,    i, n) {
    n = split(value(record[port], "features"), slots, ",")
    for (i = 1; i <= n; i++) if (slots[i] != 0 && slots[i] == decimal(toupper(b2))) return known[i]
    return ""
}

function type_text(type) {
    return (type in radio ? radio[type] : "radio report of type " type)
}

# The types whose bits are set in eight hexadecimal digits, the lowest first.
function sends(bits,    i, d, b, text, type) {
    for (i = 0; i < 32; i++) {
        d = index(digits, substr(bits, 8 - int(i / 4), 1)) - 1
        for (b = 0; b < i % 4; b++) d = int(d / 2)
        if (d % 2 == 0) continue
        type = substr(digits, int(i / 16) + 1, 1) substr(digits, i % 16 + 1, 1)
        text = text (text == "" ? "" : ", ") (type in radio ? radio[type] : "type " type)
    }
    return text == "" ? "nothing" : text
}

function devices_of(bits,    d, i, n, text) {
    d = decimal(bits)
    for (i = 1; i <= 8; i++) {
        if (d % 2) text = text (n++ ? ", " : " ") i
        d = int(d / 2)
    }
    return (n ? "device" : "no device") (n > 1 ? "s" : "") text
}

function keep_alive(timeout) {
    return decimal(timeout) == 0 ? "no keep-alive" : "to be sent again within " count(decimal(timeout), "second")
}

function dropped(answer,    n) {
    n = value(answer, "dropped")
    return n == 0 ? "no request dropped" : count(n, "waiting request") " dropped"
}

function battery(level, next_level, state) {
    return "level " decimal(level) " %, next level " decimal(next_level) " %, status " decimal(state) (decimal(state) in charge ? " (" charge[decimal(state)] ")" : "")
}

function movement(answer) {
    if (answer !~ /^moved/) return answer
    return "buttons " value(answer, "buttons") ", x " value(answer, "x") ", y " value(answer, "y") ", wheel " value(answer, "wheel") ", pan " value(answer, "pan")
}

# ---- records: what a port's line of a dump says that the one before it did not

function changed(line,    port, i, text, k) {
    port = value(line, "port")
    if (first == "stray" && port == value(last, "port")) stray(line, port)
    if (first != "refused" && first != "no call")
        for (i = 1; i <= shown_count; i++) {
            k = shown[i]
            if (value(line, k) != before(port, k)) text = text (text == "" ? "" : ", ") k "=" value(line, k)
        }
    if (text != "") explain("now held for " who(port) ": " text)
    record[port] = line
}

function before(port, k) {
    return port in record ? value(record[port], k) : fresh[k]
}

function at_end(line,    i) {
    if (!ended) {
        settle()
        for (i = 2; i <= parts; i++) print "    " field[i]
    }
    ended++
    record[value(line, "port")] = line
    order[ended] = value(line, "port")
}

function settle() {
    if (number != "") print ""
}

# ---- the end

function summary(    i, port, waiting) {
    print "Summary"
    print "  " count(lines - kinds["no call"], "call") (kinds["no call"] ? "; " count(kinds["no call"], "line") (kinds["no call"] == 1 ? " is" : " are") " no call" : "")
    print "  answers: " listed(kinds, kind_order, kind_count)
    if (kinds["refused"]) print "  refusals:"
    for (i = 1; i <= 255; i++) if (i in refusals) print "    " refusals[i] " with " i ": " refusal[i]
    for (i = 1; i <= ended; i++) waiting += waiting_on(order[i])
    ways["still waiting"] = waiting
    print "  requests: " ways["accepted"] + 0 " accepted; " listed(ways, way_order, way_count)
    print "  waiting:" (waiting ? "" : " nothing")
    for (i = 1; i <= ended; i++) if (waiting_on(order[i])) print "    " who(order[i]) ": " waiting_text(order[i])
    hints()
}

function listed(table, names, n,    i, text) {
    for (i = 1; i <= n; i++) if (table[names[i]]) text = text (text == "" ? "" : ", ") table[names[i]] " " names[i]
    return text == "" ? "none" : text
}

function waiting_on(port,    i, n, many) {
    n = split(value(record[port], "places"), places, ",")
    for (i = 1; i <= n; i++) if (places[i] != "-") many++
    return many + 0
}

function waiting_text(port,    i, n, text, p) {
    n = split(value(record[port], "places"), places, ",")
    for (i = 1; i <= n; i++) {
        if (places[i] == "-") continue
        split(places[i], p, ":")
        text = text (text == "" ? "" : "; ") asking(port, p[1], p[2], p[3] " " p[4] " " p[5]) ", " count(p[6], "tick") " left"
    }
    return text
}

function hints(    device, text) {
    for (device = 1; device <= 6; device++) if (device in unpaired_devices) text = text (text == "" ? "" : ", ") device
    if (text != "") print "  hint: reports came of devices that are not paired here: " text ". README.md, \"A capture begun in the middle\", has what to put first."
    if (kinds["stray"] && !ways["accepted"]) print "  hint: replies came, and no request was made. README.md, \"A capture without what went out\", has what to do."
}

# ---- text

function value(line, k) {
    if (!match(" " line, " " k "=[^ ]*")) return ""
    return substr(line, RSTART + length(k) + 1, RLENGTH - length(k) - 2)
}

function parameters(answer,    i, from, text) {
    from = 2 + value(answer, "start")
    for (i = from; i < from + value(answer, "length"); i++) text = text (i == from ? "" : " ") toupper(word[i])
    return text
}

function rest(i,    text) {
    for (; i <= words; i++) text = text (text == "" ? "" : " ") toupper(word[i])
    return text
}

function key(port, b2, b3) {
    return port " " toupper(b2) " " toupper(b3)
}

function count(n, thing) {
    return n " " thing (n == 1 ? "" : "s")
}

function decimal(hh) {
    hh = toupper(hh)
    return 16 * (index(digits, substr(hh, 1, 1)) - 1) + index(digits, substr(hh, 2, 1)) - 1
}

# ---- tables

function name_refusals() {
    refusal[1] = "the report has no byte"
    refusal[2] = "no such report id"
    refusal[3] = "the length is not that of the id, or of a mouse payload"
    refusal[4] = "a DJ type that only goes to the receiver"
    refusal[5] = "no such port"
    refusal[6] = "a reserved byte 2"
    refusal[7] = "the device is not paired"
    refusal[8] = "the device has not declared this type of radio report"
    refusal[9] = "a request that is not allowed"
    refusal[10] = "what is to be written does not fit"
    refusal[11] = "such a request already waits"
    refusal[12] = "all four places of the port are taken"
    refusal[13] = "no such request waits"
    refusal[14] = "a reserved device bit"
    refusal[15] = "a store of another edition: keep the file, and read it with the software that wrote it"
    refusal[16] = "a line of the store breaks the rules: keep a copy of the file, and ask the devices anew"
    refusal[17] = "bytes after the radio report's payload are not zero, as a faulty receiver sends them"
}

function name_kinds() {
    kind_count = split("wrote,reply,error,stray,plain,event,radio,paired,unpaired,empty-list,link,other,cancelled,ended,restored,report,moved,dump,refused,no call", kind_order, ",")
    way_count = split("replied,failed,expired,cancelled,dropped,lost,still waiting", way_order, ",")
    shown_count = split("paired,wpid,reports,version,features,battery,serial", shown, ",")
    fresh["paired"] = "0"
    fresh["wpid"] = "0000"
    fresh["reports"] = "00000000"
    fresh["version"] = "-"
    fresh["features"] = "0,0,0,0,0"
    fresh["battery"] = "-"
    fresh["serial"] = "-"
}

# 8F is HID++ 1.0, of which documents 000 and 004 name three codes; FF is HID++ 2.0, document 000's table.
function name_errors() {
    error["8F", "01"] = "ERR_INVALID_SUBID (traces of document 004 print SUCCESS)"
    error["8F", "02"] = "INVALID_SUBID (as traces of document 004 print it)"
    error["8F", "03"] = "INVALID_ADDRESS (as document 004 prints it)"
    error["FF", "00"] = "NoError"
    error["FF", "01"] = "Unknown"
    error["FF", "02"] = "InvalidArgument"
    error["FF", "03"] = "OutOfRange"
    error["FF", "04"] = "HWError"
    error["FF", "05"] = "Logitech internal"
    error["FF", "06"] = "INVALID_FEATURE_INDEX"
    error["FF", "07"] = "INVALID_FUNCTION_ID"
    error["FF", "08"] = "Busy"
    error["FF", "09"] = "Unsupported"
}

function name_rest(    i) {
    register["80"] = "set register"
    register["81"] = "get register"
    register["82"] = "set long register"
    register["83"] = "get long register"
    notice["40"] = "device disconnection"
    notice["41"] = "device connection"
    notice["4A"] = "the receiver opened or closed for pairing"
    kind_of["10"] = "short HID++ report"
    kind_of["11"] = "long HID++ report"
    kind_of["20"] = "short DJ report"
    kind_of["21"] = "long DJ report"
    radio["01"] = "keyboard"
    radio["02"] = "mouse"
    radio["03"] = "consumer control"
    radio["04"] = "system control"
    radio["08"] = "media center"
    radio["0E"] = "keyboard LEDs"
    radio["10"] = "short HID++"
    radio["11"] = "long HID++"
    payload["01"] = payload["02"] = 7
    payload["03"] = 4
    payload["04"] = payload["08"] = 1
    split("0001,0003,0005,1000,1D4B", known, ",")
    name_of["0001"] = "feature set"
    name_of["0003"] = "firmware information"
    name_of["0005"] = "device name and type"
    name_of["1000"] = "battery"
    name_of["1D4B"] = "wireless status"
    split("discharging,recharging,nearly charged,charged,recharging slowly,invalid battery type,thermal error,other charging error", sides, ",")
    for (i = 1; i <= 8; i++) charge[i - 1] = sides[i]
}
