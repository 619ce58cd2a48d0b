# Prints what Rattle sources say without their comments, so that a sum over it changes with each word and with no comment. Standard
# input has the paths of the files, one a line.
#
# Each file begins with a line `file PATH`. All its words follow on one line: one space stands for each gap between them, and a comment
# is a part of a gap. A literal (a text, a character, bytes, raw or not) stays as it is. If it has several lines, `|` stands in front of
# each but the first, so no literal looks like the line of a file.
#
# A file with a block comment, or with a literal that doesn't end, stays as it is, and `=` stands in front of each line: what such
# a file has outside of literals isn't known for sure, so everything in it counts.

# the words of a file behind a space, or nothing if the file stays as it is
function words_of(path,    line, read) {
    text = " "
    literal_ends = ""
    while ((read = (getline line < path)) > 0) {
        if (literal_ends != "") text = text "\n|"
        else add_code(" ")
        while (line != "" && literal_ends != "?")
            line = literal_ends == "" ? after_code(line) : after_literal(line)
        if (literal_ends == "?") break
    }
    close(path)
    if (read < 0) fail(path)
    if (literal_ends != "") return ""
    return text ~ /. $/ ? substr(text, 1, length(text) - 1) : text
}

# takes code up to the next literal or comment, and returns what follows it in the line
function after_code(line,    at, sign) {
    at = match(line, /["'\/]/)
    if (!at) {
        add_code(line)
        return ""
    }
    add_code(substr(line, 1, at - 1))
    sign = substr(line, at, 1)
    if (sign == "\"") return begin_literal(line, at)
    line = substr(line, at)
    if (sign == "/" && substr(line, 2, 1) == "/") {
        add_code(" ")
        return ""
    }
    if (sign == "/" && substr(line, 2, 1) == "*") {
        literal_ends = "?"
        return ""
    }
    # (an apostrophe that begins no character begins the name of a lifetime)
    at = sign == "'" && match(line, /^'(\\.[^']*|[^'\\]|[^ -~]+)'/) ? RLENGTH : 1
    text = text substr(line, 1, at)
    return substr(line, at + 1)
}

# takes the quote at which a text begins, and returns what follows it
function begin_literal(line, at) {
    literal_ends = "\""
    has_escapes = !match(substr(line, 1, at - 1), /(^|[^A-Za-z0-9_])[bc]?r#*$/)
    if (!has_escapes && match(substr(line, 1, at - 1), /#+$/)) literal_ends = "\"" substr(line, RSTART, RLENGTH)
    text = text "\""
    return substr(line, at + 1)
}

# takes as much of a text as the line has, and returns what follows it
function after_literal(line,    length_of) {
    if (has_escapes) length_of = match(line, /^([^"\\]|\\.)*"/) ? RLENGTH : 0
    else length_of = index(line, literal_ends) ? index(line, literal_ends) + length(literal_ends) - 1 : 0
    if (!length_of) {
        text = text line
        return ""
    }
    literal_ends = ""
    text = text substr(line, 1, length_of)
    return substr(line, length_of + 1)
}

function add_code(code) {
    gsub(/[ \t\r\f\v]+/, " ", code)
    text = text (substr(text, length(text)) == " " && substr(code, 1, 1) == " " ? substr(code, 2) : code)
}

function print_whole(path,    line) {
    while ((getline line < path) > 0) print "=" line
    close(path)
}

function fail(path) {
    print path " can't be read" | "cat >&2"
    failed = 1
}

{
    print "file " $0
    words = words_of($0)
    if (words != "") print words
    else print_whole($0)
}

END { exit failed }
