# Prints a page of the documents as it is installed: awk -v page=docs/http.md -v folder=/usr/share/doc/extractd -f page.awk LIST PAGE
#
# LIST has the installed documents, one per line, named from the top of a clone as PAGE is. What stands between the lines `<!-- clone -->` and
# `<!-- /clone -->` is left out. A link to a file that isn't installed becomes its text. The top of a clone becomes that of a copy of the folder.

# Records a document and the folders that it is in.
FNR == NR {
    for (path = $0; path != ""; path = parent(path)) installed[path]
    next
}

$0 == "<!-- clone -->" { left_out = 1 }
!left_out {
    if (/^```/) is_code = !is_code
    # Code has no links.
    if (is_code) { printf "%s", linked(text); print; text = "" } else text = text $0 "\n"
}
$0 == "<!-- /clone -->" { left_out = 0 }

END { printf "%s", linked(text) }

function parent(path) { return sub("/[^/]*$", "", path) ? path : "" }

# Returns a text in which each link leads to an installed file.
function linked(text,    done, target) {
    gsub("the[ \n]top[ \n]of[ \n]a[ \n]clone", "the top of a copy of `" folder "`", text)
    while (match(text, /\]\([^) \t\n]+\)/)) {
        target = substr(text, RSTART + 2, RLENGTH - 3)
        done = done substr(text, 1, RSTART - 1)
        if (leads_somewhere(target)) done = done substr(text, RSTART, RLENGTH)
        else done = unbracketed(done)
        text = substr(text, RSTART + RLENGTH)
    }
    return done text
}

# Whether a link leads to the web, to the page itself, or to an installed file or folder.
function leads_somewhere(target,    path) {
    if (target ~ /^[a-z]+:/ || target ~ /^#/) return 1
    sub(/#.*/, "", target)
    sub("/$", "", target)
    path = parent(page)
    while (target ~ /^\.\.(\/|$)/) {
        path = parent(path)
        sub(/^\.\.\/?/, "", target)
    }
    if (path != "" && target != "") path = path "/"
    return (path target) in installed || path target == ""
}

# Removes the bracket that begins the link at the end of a text.
function unbracketed(text,    place, depth) {
    depth = 1
    for (place = length(text); place > 0; place--) {
        if (substr(text, place, 1) == "]") depth++
        if (substr(text, place, 1) == "[" && --depth == 0) break
    }
    return substr(text, 1, place - 1) substr(text, place + 1)
}
