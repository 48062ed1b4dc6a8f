# calls.awk: writes a program that calls each function that a library has for C once, with a word or nothing, so that all are lowered with it. It takes the library's lib.rt,
# and its name as `library`.

# A value of a parameter's type.
function given(type) {
    if (type ~ /^&mut \[.*\]$/) return "&mut [0" substr(type, 7, length(type) - 7) "; 1]"
    if (type ~ /^&\[.*\]$/) return "&[0" substr(type, 3, length(type) - 3) "; 1]"
    if (type ~ /^&mut /) return "&mut 0" substr(type, 6)
    return "0"
}

/^#\[unsafe\(no_mangle\)\]$/ { exported = NR }
/^pub extern "C" fn / && exported == NR - 1 { text = ""; open = 1 }
open {
    text = text " " $0
    if ($0 !~ /\)( -> [a-z0-9]+)?( \{)?$/) next
    open = 0
    name = text; sub(/\(.*/, "", name); sub(/.* /, "", name)
    sub(/^[^(]*\(/, "", text); sub(/\)[^)]*$/, "", text)
    many = split(text, part, ",")
    words = ""
    for (k = 1; k <= many; k++) {
        gsub(/^ +| +$/, "", part[k])
        if (part[k] != "") words = words (words ? ", " : "") given(substr(part[k], index(part[k], ": ") + 2))
    }
    body = body "    " library "::" name "(" words ");\n"
}
END { printf "fn main() {\n%s}\n", body }
