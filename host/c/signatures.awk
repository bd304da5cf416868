# Reads the exported calls in the files given: the Rattle sources (.rt), the Rust
# declarations of them (.rs) and the C header (.h). Fails unless the three say the
# same: name, result, and type and name of each parameter in order. Writes each
# call as a C declaration, which layout.c includes behind the header, so that what
# was read here is what the compiler reads. same.awk comes before it.

function type(name) {
    if (name == "usize") return "size_t"
    if (name == "f32") return "float"
    if (name == "f64") return "double"
    if (name ~ /^u(8|16|32|64)$/) return "uint" substr(name, 2) "_t"
    if (name ~ /^i(8|16|32|64)$/) return "int" substr(name, 2) "_t"
    return struct_name(name)
}

# A slice is a pointer and a length.
function parameter(name, is) {
    if (sub(/^&mut \[/, "", is)) return type(substr(is, 1, length(is) - 1)) " *" name ", size_t " name "_len"
    if (sub(/^&\[/, "", is)) return "const " type(substr(is, 1, length(is) - 1)) " *" name ", size_t " name "_len"
    if (sub(/^\*mut /, "", is)) return type(is) " *" name
    if (sub(/^\*const /, "", is)) return "const " type(is) " *" name
    return type(is) " " name
}

# `name(a: T, b: U) -> R` as C.
function declaration(text,    name, list, result, n, i, part, field) {
    name = substr(text, 1, index(text, "(") - 1)
    list = text
    sub(/^[^(]*\( ?/, "", list)
    sub(/,? ?\).*/, "", list)
    result = text
    sub(/.*-> ?/, "", result)
    n = split(list, part, /, ?/)
    list = ""
    for (i = 1; i <= n; i++) {
        split(part[i], field, /: /)
        list = list (i > 1 ? ", " : "") parameter(field[1], field[2])
    }
    return type(result) " " name "(" list ");"
}

# The name of a C declaration.
function called(text) {
    sub(/\(.*/, "", text)
    sub(/.* /, "", text)
    return text
}

FNR == 1 {
    text = ""
    reading = 0
}

# A call's head ends at its contract (Rattle) or at a semicolon (Rust, C).
(kind == "rt" && /^pub extern "C" fn /) || (kind == "rs" && /^ +pub fn /) { reading = 1 }
kind == "h" && /^[a-z].* funnelivy_[a-z_]+\(/ && !/^static / { reading = 1 }

reading {
    line = $0
    last = (kind == "rt") ? line ~ /^ +ensures/ : line ~ /;$/
    if (kind == "rt" && last) line = ""
    gsub(/^ +|;$/, "", line)
    text = text (text == "" || text ~ /\($/ ? "" : " ") line
}

reading && last {
    gsub(/ +/, " ", text)
    sub(/ $/, "", text)
    sub(/^pub (extern "C" )?fn /, "", text)
    text = kind == "h" ? text ";" : declaration(text)
    found(called(text), text)
    text = ""
    reading = 0
}

END {
    for (name in names) print said["rt", name]
    exit differ("signatures.awk", "calls", 14)
}
