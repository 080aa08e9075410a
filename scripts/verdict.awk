# How a match ended, in one line. Input: what the proved program `replay` printed. In the environment, where it refused a line: BYTES, that
# line's first bytes in decimal, and COUNT, the count of a draw that was refused by 27. Exit status: 0 over, 1 not over, 3 refused, 2 none of these.
# It is a help beside the proved answer. What it says of a line comes from the printed lines and from that line; why a line cannot be read is
# worked out here anew, after parsing/specs, and where no fault is found the number and its sentence stand alone.

{ before = last; last = $0 }
$1 == "i" { snakes = NF - 4 }
$1 == "m" { moves++ }
$1 == "m" && /w/ { won = won having($0, "w") } # with play_to_last not on the last line

END {
    split(last, end, " ")
    if (end[1] == "p") exit ended()
    if (end[1] == "r") exit refused(end[2] + 0)
    exit 2
}

function plural(n, word) { return (n + 0) " " word (n == 1 ? "" : "s") }

# ---- the end of a match

# the snakes of a printed line that have this letter among their events: ` 0 2`
function having(line, letter,    n, f, s, i, list) {
    n = split(line, f, " ")
    for (i = 5; i <= n; i++) {
        split(f[i], s, ":")
        if (index(s[4], letter)) list = list " " (i - 5)
    }
    return list
}

# how the line of a move ended the match; empty where it did not
function how(line,    n, f, i, alive) {
    n = split(line, f, " ")
    if (f[1] != "m") return ""
    for (i = 5; i <= n; i++) if (f[i] ~ /^1/) alive++
    if (f[2] == 1) return !alive ? "with no snake alive" : alive == 1 ? "with one snake alive" : "by the food lead"
    return having(line, "y") == "" ? "" : "at max_ticks"
}

# `; snakes 0, 1 and 2 drew`, of the list ` 0 1 2`
function who(list, did,    n) {
    if (list == "") return ""
    n = gsub(/ /, ", ", list)
    sub(/^,/, "", list)
    if (n > 1) sub(/, [0-9]$/, " and" substr(list, length(list) - 1), list)
    return "; snake" (n > 1 ? "s" : "") list " " did
}

# what the rules ask for after a printed line
function next_is(line,    f) {
    split(line, f, " ")
    if (f[3] > 0) return "`d INDEX` is next, " plural(f[3], "apple") " due"
    return "`m` and " snakes " actions are next"
}

function ended(    by) {
    by = how(before)
    if (by == "") {
        print "not over after " plural(moves, "move") ": " next_is(before) "; places count only at the end"
        return 1
    }
    sub(/^p/, "places", last)
    print "over after " plural(moves, "move") " " by who(won, "won") who(having(before, "x"), "drew") "; " last
    return 0
}

# ---- a refusal

function refused(no,    more) {
    read_bytes()
    more = detail(no)
    print "refused at line " NR " by " no ", " sentence(no) (more == "" ? "" : ": " more) (had ? "; read: " shown() : "")
    return 3
}

# tests/sentences holds these to the clients'
function sentence(no,    s) {
    s[1] = "snakes not 2..8"
    s[2] = "initial length 0"
    s[3] = "food lead 0"
    s[4] = "food lead set, snakes not 2"
    s[5] = "grid above 32"
    s[6] = "food above g*g (0 when g < 0)"
    s[8] = "g*g(g*g-1).. of min(snakes, food) factors above 2^53"
    s[9] = "some body cannot be traced to its length"
    s[10] = "first bad cell: outside"
    s[11] = "first bad cell: already taken"
    s[12] = "food above the free cells"
    s[22] = "food is due at a step"
    s[23] = "none is due at a draw"
    s[25] = "a living snake's action above 2"
    s[27] = "outcome not below the count"
    s[32] = "unreadable line"
    s[33] = "match over"
    return no in s ? s[no] : "README.md lists it"
}

function detail(no,    f, s, i) {
    if (!had) return no == 32 && NR == 1 ? "the input is empty, and a match needs its first line" : ""
    if (no <= 12) return settings(no)
    split(before, f, " ")
    if (no == 22 && f[3] > 0 || no == 23 && f[3] == 0) return next_is(before)
    if (no == 25) {
        split(text(1, len), s, " ")
        for (i = 0; i < snakes; i++) {
            if (f[5 + i] ~ /^1/ && s[2 + i] !~ /^[012]$/) return "snake " i "'s action is " s[2 + i] ", not 0, 1 or 2"
        }
    }
    if (no == 27 && ENVIRON["COUNT"] != "") return "the count is " ENVIRON["COUNT"] ", and INDEX is below it"
    if (no == 32) return fault()
    if (no == 33 && how(before) != "") return "it was over after line " (NR - 1) " " how(before)
    return ""
}

# the fields of the first line that a refusal of the setting speaks of
function settings(no,    of, n, k, f, i, names, said) {
    of[1] = "1"; of[2] = "3"; of[3] = "5"; of[4] = "5 1"; of[5] = "2"; of[6] = "6 2"; of[8] = "2 1 6"
    of[9] = of[10] = of[11] = "2 1 3"; of[12] = "6 2 1 3"
    fields(names)
    split(text(1, len), f, " ")
    n = split(of[no], k, " ")
    for (i = 1; i <= n; i++) said = said (i > 1 ? ", " : "") names[k[i]] " is " f[k[i]]
    return said
}

function fields(names) { return split("num_snakes grid_size initial_length play_to_last win_food_lead initial_food_count max_ticks", names, " ") }

# ---- the bytes of the refused line: b[1] to b[len], without the newline; `had` where there is such a line

function read_bytes() {
    len = split(ENVIRON["BYTES"], b, " ")
    had = len > 0
    if (b[len] == 10) len--
}

function byte(c) { return c > len ? -1 : b[c] + 0 }

function text(from, to,    i, t) {
    for (i = from; i <= to; i++) t = t (byte(i) > 31 && byte(i) < 127 ? sprintf("%c", byte(i)) : byte(i) == 13 ? "\\r" : byte(i) == 9 ? "\\t" : sprintf("\\x%02X", byte(i)))
    return t
}

function shown() { return len > 60 ? "\"" text(1, 60) "\".." : len == 0 ? "a blank line" : "\"" text(1, len) "\"" }

# ---- 32: where reading stops, and what was expected: the first fault from the left

function fault() {
    stop = 0
    if (NR == 1) read_first()
    else read_later()
    if (len <= 200) return stop ? "column " stop ": " reason : ""
    return (stop && stop <= 200 ? "column " stop ": " reason "; and the line is longer" : "column 201: the line is longer") " than 200 bytes"
}

function fail(c, why) {
    if (stop) return
    stop = c
    reason = why
}

# byte c is not what was expected
function unexpected(c, expected) {
    if (c == 1 && byte(1) == 239 && byte(2) == 187 && byte(3) == 191) fail(c, "a byte-order mark; expected " expected)
    else if (c == 1 && (byte(1) == 255 && byte(2) == 254 || byte(1) == 254 && byte(2) == 255)) fail(c, "a byte-order mark of UTF-16; a match is plain text, a byte a letter")
    else if (byte(c) == 13 && c == len) fail(c, "ends in a carriage return; lines end in a newline alone")
    else if (byte(c) == 32 && c == len) fail(c, "ends in a space; expected " expected)
    else if (byte(c) == 32 && c == 1) fail(c, "starts with a space; expected " expected)
    else if (byte(c) == 32 && byte(c - 1) == 32) fail(c, "a second space; fields stand single spaces apart")
    else fail(c, "expected " expected ", found " found(c))
}

function found(c) {
    if (c > len) return "the end of the line" (byte(len) == 32 ? ", after a space" : "")
    if (byte(c) == 32) return "a space"
    if (byte(c) == 9) return "a tab"
    if (byte(c) == 13) return "a carriage return"
    if (byte(c) > 32 && byte(c) < 127) return "`" text(c, c) "`"
    return "the byte " byte(c)
}

function digit(c) { return byte(c) >= 48 && byte(c) <= 57 }

# a field ends before c
function closes(c) { return byte(c) == -1 || byte(c) == 32 }

# the digits from c to e - 1 are above those of `most`, compared as text
function above(c, e, most) { return e - c > length(most) || e - c == length(most) && text(c, e - 1) "x" > most "x" }

# Reads a number of `kind` from c on, up to `most`, and answers where it ends.
function number(c, name, kind, most, limit,    e) {
    for (e = c; digit(e); e++) ;
    if (e == c) unexpected(c, name ", " kind)
    else if (byte(c) == 48 && e > c + 1) fail(c, name " has a leading zero")
    else if (above(c, e, most)) fail(c, name " is " limit)
    else if (!closes(e)) unexpected(e, "a space or the end of the line after " name)
    return e
}

function decimal(c, name, kind) { return number(c, name, kind, "18446744073709551615", "not below 2^64") }

function grid(c) {
    if (byte(c) != 45) return number(c, "grid_size", "a number", "2147483647", "not below 2^31")
    if (byte(c + 1) == 48) fail(c, "grid_size's minus sign stands before a nonzero number alone")
    return number(c + 1, "grid_size", "a number", "2147483648", "below -2^31")
}

function flag(c,    e) {
    e = decimal(c, "play_to_last", "0 or 1")
    if (e > c + 1 || byte(c) > 49) fail(c, "play_to_last is not 0 or 1")
    return e
}

function bound(c, name) {
    if (byte(c) != 45) return decimal(c, name, "a number or `-` for none")
    if (!closes(c + 1)) unexpected(c + 1, "a space or the end of the line after the `-` of " name)
    return c + 1
}

# From the end of field k of n to the start of the next, or to the end of the line.
function onward(c, k, n, what) {
    if (k < n && byte(c) == -1) fail(c, "the line ends after " k " of " what)
    if (k == n && byte(c) == 32 && c < len) fail(c, "expected the end of the line after " what ", more follows")
    if (k == n && byte(c) == 32 && c == len) unexpected(c, "the end of the line after " what)
    return c + 1
}

function read_first(    names, n, k, c) {
    n = fields(names)
    c = 1
    for (k = 1; k <= n && !stop; k++) {
        if (k == 2) c = grid(c)
        else if (k == 4) c = flag(c)
        else if (k == 5 || k == 7) c = bound(c, names[k])
        else c = decimal(c, names[k], "a number")
        c = onward(c, k, n, n " fields")
    }
}

function read_later(    draw, n, form, what, k, c) {
    draw = byte(1) == 100
    n = draw ? 1 : snakes
    form = draw ? "`d INDEX`" : "`m` and " snakes " actions"
    what = draw ? form : snakes " actions"
    if (!draw && byte(1) != 109) unexpected(1, "`d` or `m`")
    else if (!closes(2)) unexpected(2, "a space after `" text(1, 1) "`")
    else if (len == 1) fail(2, "the line ends; expected " form)
    c = 3
    for (k = 1; k <= n && !stop; k++) {
        c = decimal(c, draw ? "INDEX" : "the action of snake " (k - 1), "a number")
        c = onward(c, k, n, what)
    }
}
