# What layout.awk and signatures.awk share: which kind of file is read, the Rattle
# sources (.rt), the Rust declarations of them (.rs) or the C header (.h), and
# whether the three say the same.

# The C name of a struct.
function struct_name(name) {
    sub(/^(Funnelivy|Raw)/, "", name)
    if (kind == "rs" && name !~ /^(Session|Opened|Fed|Reading|Card|CardAnswer)$/) name = name "Answer"
    gsub(/[A-Z]/, "_&", name)
    return "funnelivy" tolower(name)
}

# The file says this of a name.
function found(name, text) {
    seen[kind] += 1
    said[kind, name] = text
    names[name] = 1
}

# 0 if the three say the same of each name and have `due` of them, else 1.
function differ(script, what, due,    name, wrong) {
    wrong = 0
    for (name in names) {
        if (said["rt", name] != said["rs", name] || said["rt", name] != said["h", name]) {
            wrong = 1
            printf "%s: %s differs:\n  Rattle %s\n  Rust   %s\n  header %s\n", script, name, said["rt", name], said["rs", name], said["h", name] > "/dev/stderr"
        }
    }
    # A source that is laid out in another way must not pass unread.
    if (seen["rt"] != due || seen["rs"] != due || seen["h"] != due) {
        wrong = 1
        printf "%s: %d %s in the Rattle source, %d in the Rust, %d in the header, not %d\n", script, seen["rt"], what, seen["rs"], seen["h"], due > "/dev/stderr"
    }
    return wrong
}

FNR == 1 {
    kind = FILENAME
    sub(/.*\./, "", kind)
}
