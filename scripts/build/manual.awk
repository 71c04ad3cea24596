# SPDX-License-Identifier: Apache-2.0
# Makes of a header for C its page of the manual, section 3: awk -v header=NAME -v version=VERSION -f manual.awk include/NAME.h. Standard output has the page:
# what the head of the header says, and each function with the comment above it. With -v list=1 it has the names of the functions instead, a line each.

# A line of text as roff has it.
function escaped(text) {
    gsub(/\\/, "\\e", text)
    gsub(/-/, "\\-", text)
    return text ~ /^[.']/ ? "\\&" text : text
}

function out(text) {
    if (!list)
        print text
}

# Shows lines as they stand, or ends that.
function literal(wanted) {
    if (wanted != is_literal)
        out(wanted ? ".nf" : ".fi\n.PP")
    is_literal = wanted
}

# A line of a comment. Behind an empty line what is indented by four spaces is code. A line at the left behind one that is indented begins an item or a
# paragraph, and so does the name of an error. A line of capitals is a heading.
function say(text,    indent) {
    match(text, /^ */)
    indent = RLENGTH
    if (text ~ /^ *$/) {
        if (!is_literal)
            out(".PP")
        last_indent = -1
        return
    }
    literal(indent >= 4 && (is_literal || last_indent == -1))
    if (is_literal)
        out(escaped(substr(text, 5)))
    else if (text ~ /^[A-Z][A-Z ]*[A-Z]$/)
        out(".PP\n\\fB" text "\\fR\n.PP")
    else {
        if (indent == 0 && last_indent > 0)
            out(".PP")
        else if (text ~ /^  [A-Z][A-Z_, ]*[A-Z_]:/)
            out(".br")
        out(escaped(substr(text, indent + 1)))
    }
    last_indent = indent
}

# What a comment says, line by line.
function say_all(lines, count,    i) {
    last_indent = 0
    for (i = 1; i <= count; i++)
        say(lines[i])
    literal(0)
}

# What a line of a comment says.
function said(line) {
    sub(/[ \t]*\*\/[ \t]*$/, "", line)
    sub(/^[ \t]*(\/\*+|\*)? ?/, "", line)
    return line
}

function page(    title) {
    title = comment[1]
    sub(/^Covretin: /, "", title)
    sub(/[.,:].*/, "", title)
    out(".\\\" SPDX-License" "-Identifier: Apache-2.0")
    out(".TH " toupper(header) " 3 \"\" \"covretin " version "\" \"Library for C\"")
    out(".ad l\n.nh\n.SH NAME")
    out(header " \\- " escaped(title))
    out(".SH SYNOPSIS")
    out(".nf\n#include <" header ".h>\n.fi\n.PP\nLink with \\-lcovretin and \\-pthread.")
    out(".SH DESCRIPTION")
    say_all(comment, lines)
    out(".SH FUNCTIONS")
    has_head = 1
}

# A function whose declaration has ended.
function shows(    name) {
    match(declared, /covretin_[a-z0-9_]*\(/)
    name = substr(declared, RSTART, RLENGTH - 1)
    if (list)
        print name
    out(".SS " name)
    out(".nf\n" escaped(declared) "\n.fi\n.PP")
    say_all(comment, lines)
}

/^\/\* SPDX/ { next }
in_comment || /^\/\*/ {
    if (!in_comment)
        lines = 0
    in_comment = $0 !~ /\*\//
    # (what parts the functions of a header is no text)
    if (said($0) !~ /^-- .* --+$/)
        comment[++lines] = said($0)
    if (!in_comment && !has_head)
        page()
    next
}
in_declaration || /^[a-z].* \**covretin_[a-z0-9_]*\(/ {
    line = $0
    sub(/^ +/, " ", line)
    declared = in_declaration ? declared line : line
    in_declaration = $0 !~ /;/
    if (!in_declaration)
        shows()
    next
}
# (a function without a comment of its own has that of the one above)
/^$/ || /^[#}]/ { lines = /^$/ ? 0 : lines }
