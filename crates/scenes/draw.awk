# draw.awk WORDS SCENE: draws a scene of the order link from its text, in 100 columns: a column for each end, an arrow for each telegram, a
# broken one where it was lost. SCENE is what the program `scenes` prints for it; WORDS has the telegrams of it in words, a line each and in
# their order, as `lister_words` prints them. What a telegram is called is read off these words by document 01's rules of the link.

# The value of a key on a line: a text goes to the line's end, all else to the next space.
function value(line, key,    at, rest) {
    at = index(" " line, " " key "=")
    if (!at) return ""
    rest = substr(line, at + length(key) + 1)
    if (key != "text" && key != "about") sub(/ .*/, "", rest)
    return rest
}
function repeated(s, n,    all) {
    while (n-- > 0) all = all s
    return all
}
function padded(s, n) { return s repeated(" ", n - length(s)) }
function row(left, mark, middle, right_mark, right,    line) {
    line = repeated(" ", SIDE - 1 - length(left)) left " " mark padded(middle, MIDDLE) right_mark " " right
    sub(/ +$/, "", line)
    print line
}
# Words in a side's column, in as many rows as they need; the first bears the end's mark.
function side(end, words, mark,    n, word, i, line) {
    n = split(words, word, " ")
    for (i = 1; i <= n; i++) {
        line = line == "" ? word[i] : line " " word[i]
        if (i < n && length(line " " word[i + 1]) < SIDE) continue
        if (end == "head-end") row(line, mark, "", "|", ""); else row("", "|", "", mark, line)
        line = ""
        mark = "|"
    }
}
# A long text is cut.
function shown(text) {
    if (text == "-") return "(empty)"
    return length(text) < SIDE ? text : length(text) " bytes " substr(text, 1, 6) ".."
}
function tries(n) { return n == 1 ? "1 try" : n " tries" }
# An order bears its frame count bit, by which the cabinet knows a new one.
function named(words) {
    if (words ~ /frame count bit First/) return "opening (First)"
    if (words ~ /frame count bit Low/) return "order (Low)"
    if (words ~ /frame count bit High/) return "order (High)"
    if (words ~ /status Ok/) return "reply to the opening"
    if (words ~ /status DataLow/) return "reply to the order"
    return "telegram"
}
function bytes(hex,    n, i, all, most) {
    n = length(hex) / 2
    most = int((MIDDLE - 4) / 3)
    for (i = 1; i <= n; i++) {
        if (n > most && i == most - 6) { all = all ".. "; i = n - 1 }
        all = all substr(hex, 2 * i - 1, 2) " "
    }
    sub(/ $/, "", all)
    return n > most ? all " (" n " bytes)" : all
}
# A row between the columns, as the right end's telegrams go: seen in a mirror.
function turned(s,    i, all) {
    for (i = MIDDLE; i > 0; i--) all = all substr(padded(s, MIDDLE), i, 1)
    return all
}
# The arrow begins at the end that sends; what is written on it reads from left to right on either side.
function line_of(end, s, label) {
    if (end != "head-end") s = turned(s)
    sub(/@+/, label, s)
    return s
}
function arrow(i,    label, body, room) {
    label = name[i]
    body = "--- " repeated("@", length(label)) " "
    room = MIDDLE - length(body)
    if (fate[i] == "heard") body = body repeated("-", room - 1) (who[i] == "head-end" ? ">" : "<")
    else if (fate[i] == "late") body = body repeated("-", int(room / 2) - 8) " . . ."
    else body = "- - " repeated("@", length(label)) " " substr(repeated("- ", room), 1, int(room / 2)) " X lost"
    if (fate[i] != "heard" && fate[i] != "late" && who[i] != "head-end") sub(/X lost/, "X tsol", body)
    row("", "|", line_of(who[i], body, label), "|", "")
    body = bytes(hex[i])
    row("", "|", who[i] == "head-end" ? "    " body : repeated(" ", MIDDLE - 4 - length(body)) body, "|", "")
}
# The rest of an arrow whose telegram was in flight while something else happened.
function arrival(i,    body) {
    body = repeated(" ", int(MIDDLE / 2) - 8) ". . . --- " repeated("@", length(name[i])) " "
    body = body repeated("-", MIDDLE - length(body) - 1) (who[i] == "head-end" ? ">" : "<")
    row("", "|", line_of(who[i], body, name[i]), "|", "")
}
# What was called, as far as an arrow does not show it.
function called(i,    what) {
    what = text[i] == "" ? "" : shown(text[i])
    if (call[i] == "submit") side(who[i], "submits " what, "|")
    else if (call[i] == "answer") side(who[i], "answers " (number[i] ? "no. " number[i] ": " : "") what, "|")
    else if (call[i] == "silence") side(who[i], "hears nothing", "|")
    else if (call[i] == "restart") side(who[i], "RESTARTS", "*")
    else if (call[i] != "hear") side(who[i], "RESTARTS, its record made anew", "*")
}
function answered(i,    what) {
    what = said[i] == "" ? "" : shown(said[i])
    if (answer[i] == "sent") { arrow(i); return }
    if (answer[i] == "handed-up") side(who[i], "HANDED UP " (given[i] ? "as no. " given[i] ": " : "") what, "|")
    else if (answer[i] == "nothing") side(who[i], "does nothing", "|")
    else if (answer[i] == "confirmed") side(who[i], "CONFIRMED, " tries(used[i]) ": " what, "|")
    else if (answer[i] == "not-sent") side(who[i], "NOT SENT, " tries(used[i]), "|")
    else if (answer[i] == "unknown") side(who[i], "UNKNOWN, " tries(used[i]), "|")
    else if (answer[i] == "all-forgotten") side(who[i], "forgets all", "|")
    else if (answer[i] ~ /^refused/) side(who[i], answer[i], "|")
    if (used[i] != "") row("", "|", "", "|", "")
}
function wrapped(words,    n, word, i, line) {
    n = split(words, word, " ")
    for (i = 1; i <= n; i++) {
        if (line != "" && length(line " " word[i]) > 100) { print line; line = "" }
        line = line == "" ? word[i] : line " " word[i]
    }
    print line
}
# What became of the telegram that a call sent: heard in the very next call, heard late, or lost.
function followed(i,    j) {
    fate[i] = "lost"
    for (j = i + 1; j <= events; j++) {
        if (who[j] == "line") return
        if (call[j] == "hear" && who[j] != who[i]) { fate[i] = j == i + 1 ? "heard" : "late"; comes[j] = i; return }
        if (answer[j] == "sent") return
    }
}
BEGIN { SIDE = 20; MIDDLE = 58 }
FNR == NR { words[FNR] = $0; next }
/^scene=/ { if (scene == "") scene = value($0, "scene"); else tally = $0; next }
/^about=/ { about = value($0, "about"); next }
/^who=/ {
    events++
    who[events] = value($0, "who")
    call[events] = value($0, "call")
    number[events] = value($0, "number")
    text[events] = value($0, "text")
}
/^answer=/ {
    answer[events] = value($0, "answer")
    used[events] = value($0, "tries")
    given[events] = value($0, "number")
    said[events] = value($0, "text")
    if (answer[events] == "sent") { hex[events] = value($0, "telegram"); name[events] = named(words[++telegrams]) }
}
/^at=/ && who[events] == "head-end" { station = value($0, "sa"); peer = value($0, "da") }
END {
    print scene
    wrapped(about)
    print ""
    row("head end", " ", "", " ", "cabinet")
    row("station " station, " ", "", " ", "station " peer)
    row("", "|", "", "|", "")
    for (i = 1; i <= events; i++) if (answer[i] == "sent") followed(i)
    for (i = 1; i <= events; i++) {
        if (who[i] == "line") continue
        if (i in comes && fate[comes[i]] == "late") arrival(comes[i])
        called(i)
        answered(i)
    }
    if (value(tally, "orders") == "") exit
    print ""
    print "orders " value(tally, "orders") ": confirmed " value(tally, "confirmed") ", not sent " value(tally, "not-sent") ", unknown " \
        value(tally, "unknown") "; carried out " value(tally, "carried-out")
}
