# Prints each line of run.txt, in the current folder, with its answer in words beside it. The sheet comes on standard input.
# Sheet and run.txt are read side by side, so that neither is ever held whole. Ends with 1 where the crate is refused, with 2 where not all could be printed.

BEGIN {
    FS = "[ =]"
    widest = 44  # of the lines that are not refused
    run = lines("run.txt")
    table = "cat"  # says what it cannot write; not every awk does

    said["done=1"] = "done"
    said["taken=0"] = "not taken"
    said["taken=1"] = "taken"
    said["taken=2"] = "taken, and a status bit was raised"
    said["taken=3"] = "lost: the buffer memory is full"

    # what the controller itself does, by N, A and F; Q and W of the last two come behind the words
    does["28 8 26"] = "Z is done"
    does["28 9 26"] = "C is done"
    does["30 9 24"] = "Inhibit taken off"
    does["30 9 26"] = "Inhibit set"
    does["30 9 27"] = "Inhibit is "
    does["30 8 16"] = "Station Number Register: "

    end2["op=scan"] = end2["op=put"] = "past `to`"
    end2["op=repeat"] = "tries used up"
    end2["op=stop"] = "Q = 0"

    meaning[1] = "garbled"
    meaning[2] = "no such station: N is outside 1 to 23"
    meaning[3] = "no such subaddress: A is above 15"
    meaning[4] = "no such function: F is above 31, or in a transfer not 0, 2 or 3"
    meaning[5] = "overwide word: w or v is above 16777215, or v of I above 1"
    meaning[6] = "crossed range: `to` is below N or above 23"
    meaning[7] = "bad length: limit is outside 1 to 512, or tries outside 1 to 4096"
    meaning[10] = "bad module: kind is outside 1 to 5, r is not of its kind, wide is not 1 or 2, or wide is 2 in 23"
    meaning[11] = "out of order: the station is not above that of the line before"
    meaning[12] = "covered station: the module to its left is two stations wide"
    meaning[14] = "crossed window: lo is above hi"
}

$1 == "step" { row(run, "none of the eleven forms") }

$1 == "crate" {
    row(lines("crate.txt"), "not n= kind= r= wide=")
    print "crate.txt is refused at this line; nothing was run" | table
    refused = 1
}

END { exit NR > 0 && close(table) != 0 ? 2 : refused }

# The command that gives the lines of a file: no more than are read, and of each no more than shows that it is too long.
# A byte that is no sign of ASCII becomes ?, but for CR.
function lines(file) {
    return "{ head -n 99999 " file " | tr -c '\\n\\r -~' '?' | cut -b 1-81; } 2>/dev/null"
}

# Line $2 of a file, and beside it what the sheet says of it.
function row(file, misfit,    number, line, words) {
    number = $2
    while (read < number && (file | getline line) > 0) read++
    words = answer(line, misfit)
    gsub(/\r/, "^M", line)
    if (length(line) > widest) line = substr(line, 1, widest - 2) ".."
    printf "%5d  %-" widest "s  %s\n", number, line, words | table
}

# An answer that has no words here is shown as the sheet has it.
function answer(line, misfit,    words) {
    if (line == "op=z") register = 0
    if (($3 "=" $4) in said) return said[$3 "=" $4]
    if ($3 == "x") return "X=" $4 " Q=" $6 " R=" $8 sent(line, $4, $6)
    if ($3 == "l") return "L=" $4 ", " requests($4, $6)
    if ($3 == "end") {
        words = ended($4, line) ": " counted($6, "word") " in " counted($8, "cycle")
        return words (line ~ /^op=put / ? "" : stored($6))
    }
    if ($3 == "words") return counted($4, "register") " inside the window" listed($4)
    if ($3 == "refused" && $4 in meaning) return "refused (" $4 "): " refusal($4, line) ($4 == 1 ? ": " fault(line, misfit) : "")
    return substr($0, index($0, " ") + 1)
}

# A command has numbers of its own for N, and one a narrower W; a listing has bounds.
function refusal(number, line) {
    if (number == 2 && line ~ /^op=naf /) return meaning[2] ", and not 24, 26, 28 or 30"
    if (number == 5 && line ~ /^op=naf n=30 a=8 f=16 /) return "overwide word: the Station Number Register has 23 bits, and w is above 8388607"
    if (number == 5 && line ~ /^op=within /) return "overwide word: lo or hi is above 16777215"
    return meaning[number]
}

# Where a command went, if not to one station, and whether it was accepted. The Station Number Register is followed from line to line, for N24.
function sent(line, x, q,    field, naf) {
    split(line, field)
    naf = field[4] " " field[6] " " field[8]
    if (naf == "28 8 26") register = 0
    if (naf == "30 8 16") register = field[10]
    if (naf in does) return ", " does[naf] (naf == "30 9 27" ? q : naf == "30 8 16" ? stations(register) : "")
    if (field[4] == 24 && register == 0) return ", no station is addressed"
    return (field[4] == 24 ? ", sent to " stations(register) : field[4] == 26 ? ", sent to all stations" : "") (x == 1 ? "" : ", not accepted")
}

# The stations of a pattern, in words.
function stations(pattern,    each) {
    if (pattern == 8388607) return "all stations"
    each = numbers(pattern)
    return each == "" ? "no station" : (each ~ / / ? "stations " : "station ") each
}

# Their numbers: bit N - 1 belongs to station N.
function numbers(pattern,    n, each) {
    for (n = 1; pattern > 0; n++) {
        if (pattern % 2 == 1) each = each (each == "" ? "" : " ") n
        pattern = int(pattern / 2)
    }
    return each
}

function requests(l, count) {
    if (count == 0) return "no station requests"
    return count (count == 1 ? " station requests: " : " stations request: ") numbers(l)
}

function ended(end, line) {
    return end == 1 ? "limit reached" : end == 3 ? "nothing answers (X = 0)" : end2[substr(line, 1, index(line, " ") - 1)]
}

function counted(count, thing) {
    return count " " thing (count == 1 ? "" : "s")
}

# The registers of a listing, by station and subaddress: the sheet's next lines.
function listed(count,    each) {
    if (count > 0) each = ":"
    while (count-- > 0 && getline > 0 && /^word=/) each = each " N" int($2 / 16) " A" $2 % 16 (count > 0 ? "," : "")
    return each
}

# The words of a transfer: the sheet's next lines. A put has none.
function stored(count,    words) {
    if (count > 0) words = ":"
    while (count-- > 0 && getline > 0 && /^word=/) words = words " " substr($0, 6)
    return words
}

# What is wrong with a garbled line, where it is plain to see.
function fault(line, misfit) {
    if (line == "") return "the line is empty"
    if (length(line) > 80) return "over 80 bytes"
    if (line ~ /\r$/) return "a CR before the LF; tr -d '\\r' mends the file"
    if (line ~ /^ |  | $/) return "a space too many"
    if (line ~ /=0[0-9]/) return "a leading zero"
    if (line ~ /[0-9][0-9][0-9][0-9][0-9][0-9][0-9][0-9][0-9]/) return "over 8 digits"
    return misfit
}
