# refusal.awk: explains a refusal of a question's text in one line: line and column, what stands there, and what could. It takes the text's bytes as decimal numbers (od), and
# the number and the place that the program printed, as `refused` and `place`. What stands before the place is as it must be: it is gone through to know what is declared
# and what is open, and not tested again. Columns count bytes from 1.

{ for (k = 1; k <= NF; k++) text[size++] = $k + 0 }

END {
    for (k = 33; k < 127; k++) character[k] = sprintf("%c", k)
    split("edition= unknowns= arities= equations=", keys, " ")
    line = 1
    for (k = 0; k < place; k++)
        if (text[k] == 10) {
            content[line++] = row
            row = ""
            start = k + 1
        } else row = row character[text[k]]
    content[line] = row
    key = line in keys ? keys[line] : line % 2 ? "left=" : "right="
    value = start + length(key)
    declared["x"] = substr(content[2], 10) + 0
    declared["f"] = split(substr(content[3], 9), arity, ",")
    last = 4 + 2 * substr(content[4], 11)
    if (line > 4) walk()
    said = refused == 2 ? number() : refused == 3 ? above() : refused == 4 ? undeclared(place) : refused == 5 ? arguments() : refused == 6 ? nesting() : misplaced()
    print "solve: " (written ? "" : "line " line ", column " place - start + 1 ": ") said
}

# walk: goes through the line's term up to the place. Then `due` says what comes next, and `open` counts the brackets that are open; of each, `functor` is its functor's
# number, or -1 for a set, `count` the arguments so far, and `tail` whether its bar was there. `name` is the number of the last unknown or functor.
function walk(    at, byte) {
    due = "term"
    for (at = value; at < place; at++) {
        byte = character[text[at]]
        if (byte == "x" || byte == "f") {
            name = digits(at + 1) + 0
            due = byte == "f" && arity[name + 1] > 0 ? "bracket" : "after"
        } else if (byte == "{" || byte == "(") {
            functor[++open] = byte == "(" ? name : -1
            count[open] = 1
            tail[open] = 0
            due = byte == "(" ? "term" : "first"
        } else if (byte == "}" || byte == ")") {
            open--
            due = "after"
        } else if (byte == ",") {
            count[open]++
            due = "term"
        } else if (byte == "|") {
            tail[open] = 1
            due = "tail"
        }
    }
}

# The digits from a place on, as many as are worth showing.
function digits(from,    at, shown) {
    for (at = from; text[at] >= 48 && text[at] <= 57; at++)
        if (at < from + 12) shown = shown character[text[at]]
    return shown (at > from + 12 ? ".." : "")
}

function found(    byte) {
    if (size == 0) return "an empty input"
    if (place >= size) return "the end of the text"
    byte = text[place]
    if (byte == 13) return "a carriage return (CR)"
    if (byte == 10) return "a line feed (LF)"
    if (byte == 32) return "a space"
    if (byte == 9) return "a tab"
    if (byte == 0) return "a NUL byte"
    if (byte == 239 && text[place + 1] == 187 && text[place + 2] == 191) return "a byte order mark (UTF-8)"
    if ((byte == 254 || byte == 255) && byte + text[place + 1] == 509) return "a byte order mark (UTF-16)"
    return byte in character ? "'" character[byte] "'" : "byte " byte (byte > 127 ? ", which is not ASCII" : "")
}

function misplaced() { return "found " found() ", expected " expected() }

function expected() {
    if (place < value) return line > last ? "the end of the text" : "'" key "' at the start of the line"
    if (line == 3) return "',' or a line feed (LF)"
    if (line < 5 || due == "after" && !open) return line == last && place >= size ? "the line feed (LF) that ends the last line" : "a line feed (LF)"
    if (due == "term") return "a term: x, f or '{' begins one"
    if (due == "first") return "a term, which x, f or '{' begins, or '}'"
    if (due == "tail") return "an unknown or a functor: x or f"
    if (due == "bracket") return "'(' and " many(arity[name + 1]) " after f" name
    if (functor[open] < 0) return tail[open] ? "'}'" : "',', '|' or '}'"
    return count[open] < arity[functor[open] + 1] ? "','" : "')'"
}

function number() {
    if (text[place] == 48) return "found " digits(place) ", expected a number without a leading zero"
    return "found " found() ", expected a number" (line == 3 && place == value ? ", or a line feed (LF) where there are no functors" : "")
}

function above() {
    if (line == 1) return "found edition " digits(place) ", expected edition 1"
    if (line == 2) return "found " digits(place) " unknowns, expected at most 256"
    if (line == 3 && split(content[3], numbers, ",") > 256) return "found functor 257, expected at most 256"
    if (line == 3) return "found an arity of " digits(place) ", expected at most 8"
    if (line == 4) return "found " digits(place) " equations, expected at most 64"
    if (digits(place) != "") return undeclared(place - 1)
    return "found symbol 4,097, expected at most 4,096 in all terms together"
}

function undeclared(at,    letter, most) {
    letter = character[text[at]]
    most = declared[letter] - 1
    return "found " letter digits(at + 1) ", expected " (most < 0 ? "no " (letter == "x" ? "unknown" : "functor") ", since none is" : most ? letter "0 to " letter most ", which are" : letter "0, which is") " declared"
}

function many(k) { return k " argument" (k == 1 ? "" : "s") }

function arguments(    most) {
    if (due == "bracket") return misplaced()
    if (due == "after" && text[place] == 40) return "found '(', expected no arguments: the arity of f" name " is 0"
    most = arity[functor[open] + 1]
    return "found " found() " after " many(count[open]) " of f" functor[open] ", expected " (text[place] == 44 ? "')'" : "','") ": its arity is " most
}

# A bracket inside 200 others; or else the text was read, and an answer cannot be written: then the place counts words.
function nesting() {
    if (open == 200 && (text[place] == 40 || text[place] == 123 && text[place + 1] != 125)) return "found '" character[text[place]] "' inside 200 brackets, expected at most 200"
    written = 1
    return "the question is good, and an answer cannot be written: it has '(' or '{' inside 200 brackets (at word " place " of the answers; a program gets them in words)"
}
