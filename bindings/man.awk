# Makes a manual page from what `ucstore --help` and its subcommands print, or those of `ucstore-db`. It reads their texts one behind the
# other, each below a line `== NAME`: the program's name for the first, and a subcommand's for the others.
#
#     awk -v version='ucstore 0.2.0' -f man.awk

# A text as troff takes it.
function plain(text) {
    gsub(/\\/, "\\e", text)
    gsub(/-/, "\\-", text)
    if (text ~ /^[.']/) text = "\\&" text
    return text
}

function heading(text) {
    leave()
    print ".SH " text
}

# Ends a block of lines that are shown as they stand.
function leave() {
    if (shown) print ".fi\n.RE"
    shown = 0
}

# A line that is shown as it stands. Empty lines before the first don't count.
function show(text) {
    if (!shown && text == "") return
    if (!shown) print ".PP\n.RS 2\n.nf"
    shown = 1
    print plain(text)
}

# A line with a word or an option, two spaces or more, and what it means.
function item(text) {
    sub(/^ +/, "", text)
    match(text, /   *[^ ]/)
    print ".TP\n.B " plain(substr(text, 1, RSTART - 1))
    print plain(substr(text, RSTART + RLENGTH - 1))
}

/^== / {
    name = $2
    first = !count++
    if (first) {
        program = name
        printf ".TH %s 1 \"\" \"%s\" \"User Commands\"\n", toupper(plain(program)), version
    } else {
        heading("\"" toupper(plain(program " " name)) "\"")
    }
    part = "about"
    next
}

part == "about" {
    sub(/\.$/, "")
    if (first) print ".SH NAME\n" name " \\- " plain($0)
    else print plain($0)
    part = ""
    next
}

/^Usage: / {
    sub(/^Usage: [^ ]+/, program)
    if (first) heading("SYNOPSIS")
    print ".PP\n.B " plain($0)
    next
}

/^(Commands|Arguments|Options):$/ {
    sub(/:/, "")
    if (first) heading(toupper($0))
    part = "items"
    next
}

# A long meaning goes on.
part == "items" && /^            / { sub(/^ +/, ""); print plain($0); next }

part == "items" && /^ / { item($0); next }

{
    part = ""
    show($0)
}

END { leave() }
