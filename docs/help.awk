# Prints what the manual page docs/css.1 says of one command, or of all of them where `command` is none of theirs.
#
#     awk -v command=tv -f docs/help.awk docs/css.1

# The words of a macro line, with quotation marks taken off: one string, or joined without spaces where fonts alternate.
function words(line, between,    text, piece) {
    text = ""
    while (match(line, /^ *("[^"]*"|[^ "]+)/)) {
        piece = substr(line, RSTART, RLENGTH)
        line = substr(line, RSTART + RLENGTH)
        sub(/^ */, "", piece)
        gsub(/"/, "", piece)
        text = text == "" ? piece : text between piece
    }
    return text
}

function add(text) {
    gsub(/\\f[A-Z]/, "", text)
    gsub(/\\/, "", text)
    paragraph = paragraph == "" ? text : paragraph " " text
}

function flush(    fits) {
    if (paragraph != "") {
        if (section == "SYNOPSIS") fits = !known || paragraph ~ ("^css " command "( |$)")
        else if (section == "COMMANDS") fits = !known || tag == command
        else if (section == "OPTIONS") fits = known && (" " part " ") ~ ("[ ,]" command "[ ,]")
        else fits = 0
        if (fits) print (section == "SYNOPSIS" ? "usage: " : tag == "" ? "" : "  " tag "  ") paragraph
    }
    paragraph = ""
}

BEGIN { known = command ~ /^(replay|migrate|agree|audit|companion|watch|tv|pair|relay|generate|survey)$/ }
/^\.SH / { flush(); section = $2; part = tag = ""; next }
/^\.SS / { flush(); part = substr($0, 5); tag = ""; next }
/^\.(br|PP)/ { flush(); next }
/^\.TP/ { flush(); tag = ""; wants_tag = 1; next }
/^\.(BI|BR|IB|IR|RB|RI) / { line = words(substr($0, 5), "") }
/^\.[BI] / { line = words(substr($0, 4), " ") }
/^\./ && !/^\.(BI|BR|IB|IR|RB|RI|B|I) / { next }
/^[^.]/ { line = $0 }
wants_tag { add(line); tag = paragraph; paragraph = ""; wants_tag = 0; next }
{ add(line) }
END { flush() }
