# Reads the #[repr(C)] structs and the exported functions of the crates behind the static library, and prints lines of C that hold
# include/pierloft.h to them: every struct's size and alignment, each field's offset and width, by the rules of repr(C); and every
# function's type.
function fail(m) { print "layout.awk: " FILENAME ":" FNR ": " m > "/dev/stderr"; bad = 1; exit 1 }
function c_name(s) { # FlatReader: pierloft_reader
    sub(/^Flat/, "", s)
    return "pierloft_" tolower(s)
}
function width(t,    n) {
    if (t == "u8") { size = 1; align = 1 }
    else if (t == "u16") { size = 2; align = 2 }
    else if (t == "u32") { size = 4; align = 4 }
    else if (t == "u64" || t == "usize") { size = 8; align = 8 }
    else if (t ~ /^\[.*; [0-9]+\]$/) {
        n = t; sub(/^.*; /, "", n); sub(/\]$/, "", n)
        sub(/^\[/, "", t); sub(/; [0-9]+\]$/, "", t)
        width(t); size = size * n
    }
    else if (t in sizes) { size = sizes[t]; align = aligns[t] }
    else fail("no width for the type " t)
}
function up(n, a) { return int((n + a - 1) / a) * a }
function c_type(t) {
    if (t == "&[u8]") return "const uint8_t *, size_t"
    if (t == "&mut [u8]") return "uint8_t *, size_t"
    if (t == "usize") return "size_t"
    if (t ~ /^u(8|16|32|64)$/) return "uint" substr(t, 2) "_t"
    if (t in sizes) return c_name(t)
    if (t ~ /^\[.*; [0-9]+\]$/) { sub(/^\[/, "", t); sub(/; [0-9]+\]$/, "", t); return c_type(t) }
    if (t ~ /^&\[/) return "const " c_type(substr(t, 2)) " *"
    if (t ~ /^&mut /) return c_type(substr(t, 6)) " *"
    fail("no C type for " t)
}
function prototype(text,    f, inner, result, n, part, i, t, list) {
    f = text; sub(/^pub extern "C" fn /, "", f); sub(/\(.*$/, "", f)
    inner = text; sub(/^[^(]*\(/, "", inner); sub(/\) *(->.*)?$/, "", inner)
    result = "void"
    if (text ~ /->/) { result = text; sub(/^.*-> */, "", result); sub(/ *$/, "", result); result = c_type(result) }
    n = split(inner, part, /, */)
    for (i = 1; i <= n; i++) {
        t = part[i]; sub(/^ *[a-z_]*: */, "", t); sub(/ *$/, "", t)
        if (t != "") list = list (list == "" ? "" : ", ") c_type(t)
    }
    print result " (*like_" f ")(" (list == "" ? "void" : list) ") = " f ";"
    functions++
}
/^pub extern "C" fn / { gathering = 1; text = "" }
gathering {
    line = $0
    if (line ~ /^    (ensures|requires)/ || line ~ /^{/) { gathering = 0; prototype(text); next }
    sub(/^ +/, "", line); sub(/ *{$/, "", line)
    text = text (text ~ /,$/ ? " " : "") line
    if ($0 ~ /{$/) { gathering = 0; prototype(text) }
    next
}
/^#\[repr\(C\)\]/ { repr = 1; next }
/^pub struct / && repr { name = $3; c = c_name(name); at = 0; most = 1; next }
name != "" && /^    pub / {
    field = $2; sub(/:$/, "", field)
    t = $0; sub(/^    pub [a-z_0-9]*: /, "", t); sub(/,$/, "", t)
    width(t)
    at = up(at, align)
    if (align > most) most = align
    print "HELD(offsetof(" c ", " field ") == " at ");"
    print "HELD(sizeof(((" c " *)0)->" field ") == " size ");"
    at += size
    next
}
name != "" && /^}/ {
    sizes[name] = up(at, most); aligns[name] = most
    print "HELD(sizeof(" c ") == " sizes[name] ");"
    print "struct aligned_" c " { char before; " c " at; };"
    print "HELD(offsetof(struct aligned_" c ", at) == " most ");"
    name = ""; repr = 0; structs++
}
END { if (!bad && (!structs || !functions)) { print "layout.awk: no struct or no function was found" > "/dev/stderr"; exit 1 } }
