# Writes one check for each field of the #[repr(C)] structs in the Rattle sources
# (.rt) and in the Rust declarations of them (.rs): offset, size and kind as the
# rules of repr(C) give them. layout.c includes what is written. Fails unless these
# and the C header (.h) have the same fields in the same order, since a field in
# what was padding changes no offset and no size. same.awk comes before it.

function up(n, to) { return int((n + to - 1) / to) * to }

# A struct and its fields were read.
function whole() {
    found(struct, list)
    list = ""
    inside = 0
}

/^#\[repr\(C\)\]/ { exported = 1 }

exported && /^pub struct / {
    struct = struct_name($3)
    end = 0
    widest = 1
    inside = 1
    exported = 0
}

inside && /^ +pub [a-z_]+: / {
    field = $2
    type = $3
    sub(/:/, "", field)
    sub(/,/, "", type)
    if (type ~ /(Session|Card)$/) {
        size = size_of[struct_name(type)]
        align = 8
        form = "RECORD"
    } else {
        size = substr(type, 2) / 8
        align = size
        form = (type ~ /^f/) ? "FLOATING" : "WHOLE"
    }
    end = up(end, align)
    printf "%s(%s, %s, %d, %d)\n", form, struct, field, end, size
    end += size
    if (align > widest) widest = align
    list = list " " field
}

inside && kind != "h" && /^}/ {
    size_of[struct] = up(end, widest)
    printf "SIZE(%s, %d)\n", struct, size_of[struct]
    whole()
}

kind == "h" && /^typedef struct [{]/ { inside = 1 }

inside && kind == "h" && /^ +[a-z0-9_]+ [a-z_]+;/ {
    field = $2
    sub(/;/, "", field)
    list = list " " field
}

inside && kind == "h" && /^} / {
    struct = $2
    sub(/;/, "", struct)
    whole()
}

END { exit differ("layout.awk", "records", 12) }
