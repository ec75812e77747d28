# The dialogue with a kit desk by a reading of its own, with nothing of the program in it: lines in, the desk's lines out.
# A kit is stopped if at some accepted scan its handout was scanned and it was not promised: at most its window ago there was a promise of it,
# and no return of it since. For numbers below 2^53, and longer ones that are too large or no barcode of any kit.

# Digits without a leading zero, of at most 64 bits. Numbers of the same length are compared as text.
function above(x, y) { return length(x) != length(y) ? length(x) > length(y) : x "" > y "" }
function good(w) { return w ~ /^(0|[1-9][0-9]*)$/ && !above(w, "18446744073709551615") }

# What is wrong with a line that is to have n words: a bad word among them, too few or too many, a bad word after them.
function wrong(n,  i) {
    if (long) return 13
    for (i = 1; i <= n && i <= count; i++) if (!good(word[i])) return 13
    if (count < n) return 1
    if (count > n) return good(word[n + 1]) ? 1 : 13
    return 0
}

function refuse(n) { print "desk " n; closed = 1 }

function open_desk(  i, k) {
    for (i = 0; i < 3 * kits; i++) {
        if (code[i] in place) return refuse(18)
        place[code[i]] = i
    }
    for (k = 0; k < kits; k++) if (above(window[k], last_time)) return refuse(19)
    print "desk 0"
    opened = 1
}

# A scan that is accepted; whether it stops its kit just now.
function scan(hour, at,  k, stops) {
    k = int(at / 3)
    stops = 0
    if (at % 3 == 0) { promised[k] = 1; since[k] = hour }
    if (at % 3 == 1 && !stopped[k] && !(promised[k] && hour <= since[k] + window[k])) { stopped[k] = 1; stops = 1 }
    if (at % 3 == 2) promised[k] = 0
    clock = hour
    return stops
}

function words(  k, said) {
    for (k = 0; k < kits; k++) said = said (stopped[k] ? " 000" : " 122")
    return said
}

function scan_line(  n, stops) {
    lines++
    n = wrong(2)
    if (n == 0 && !(word[2] in place)) n = 20
    if (n == 0 && above(clock, word[1])) n = 7
    if (n == 0 && above(word[1], last_time)) n = 8
    if (n != 0) { print lines " " n; return }
    stops = scan(word[1], place[word[2]])
    print lines " 0" words()
    if (stops) print "slip " int(place[word[2]] / 3)
}

BEGIN { last_time = "9223372036854775807"; clock = "0"; longest = 255 }

closed { next }
{
    line = $0
    long = length(line) > longest
    sub(/\r$/, "", line)
    count = split(line, part, / +/)
    spoken = 0
    for (i = 1; i <= count; i++) if (part[i] != "") word[++spoken] = part[i]
    count = spoken
    if (count == 0 && !long) next
    if (opened) { scan_line(); next }
    n = wrong(counted ? 4 : 1)
    if (n != 0) { refuse(n); next }
    if (!counted) {
        counted = 1
        kits = word[1]
        if (kits == "0" || above(kits, "16")) refuse(18)
        next
    }
    for (i = 0; i < 3; i++) code[3 * given + i] = word[i + 1]
    window[given++] = word[4]
    if (given == kits) open_desk()
}

END {
    if (closed) exit
    if (opened) print "end"
    else print "desk 1"
}
