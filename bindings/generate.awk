# The awk program of bindings/generate: to is c, rust or crate; the files are those with the structs, and last the one with the calls (again).

BEGIN { THEIRS = "The Rust's own four numbers, for a house that wants no others." }

function fail(what) { print "bindings/generate: " what > "/dev/stderr"; failed = 1; exit 1 }

# TYPES
# a struct's name in C
function c_name(name) { return "Savoiky" name }

# a number's size in bytes; of other types 0
function number(t) {
    if (t == "u8" || t == "bool") return 1
    if (t == "u32") return 4
    if (t == "u64" || t == "usize" || t == "f64") return 8
    return 0
}

function c_type(t) {
    if (t == "bool") return "bool"
    if (t == "f64") return "double"
    if (t == "usize") return "size_t"
    if (number(t)) return "uint" 8 * number(t) "_t"
    need(t)
    return c_name(t)
}

function rust_type(t) {
    if (!number(t)) need(t)
    return t
}

# A struct that a signature or another struct names: its own structs first, then itself; and the call that needs it first.
function need(name,    i, n, f, t) {
    if (name in needed) return
    if (!(name in fields)) fail("no #[repr(C)] struct " name)
    needed[name] = 1
    n = split(fields[name], f, ";")
    for (i = 1; i < n; i++) {
        t = f[i]
        sub(/^[^:]*: /, "", t)
        if (!is_array(t) && !number(t)) need(t)
    }
    order[++structs] = name
    wanted_by[structs] = reading
}

# an array [T; N] is kept as [T@N]
function is_array(t) { return t ~ /^\[[a-z0-9]+@[0-9]+\]$/ }
function element(t) { sub(/^\[/, "", t); sub(/@.*/, "", t); return t }
function count(t) { sub(/.*@/, "", t); sub(/\]$/, "", t); return t + 0 }

# SIZES, as C lays structs out on x86-64
function size_of(t) {
    if (is_array(t)) return number(element(t)) * count(t)
    return number(t) ? number(t) : laid(t)
}

function align_of(t) {
    if (is_array(t)) return number(element(t))
    if (number(t)) return number(t)
    laid(t)
    return aligned[t]
}

function up(n, a) { return int((n + a - 1) / a) * a }

function laid(name,    i, n, f, t, at, most) {
    if (name in sizes) return sizes[name]
    at = 0
    most = 1
    n = split(fields[name], f, ";")
    for (i = 1; i < n; i++) {
        t = f[i]
        sub(/^[^:]*: /, "", t)
        if (align_of(t) > most) most = align_of(t)
        at = up(at, align_of(t)) + size_of(t)
    }
    aligned[name] = most
    return sizes[name] = up(at, most)
}

# READING
function forget() { comment = ""; exported = 0; shared = 0 }

FNR == 1 { file++; last = (file == ARGC - 1); forget(); inside = ""; defaulting = 0 }

# the body of a struct
inside != "" {
    if ($0 ~ /^}/) { inside = ""; next }
    line = $0
    sub(/^ +/, "", line)
    if (line ~ /^\/\//) { sub(/^\/\/ ?/, "", line); before = before line "\n"; next }
    if (line !~ /^pub [a-z0-9_]+: .*,$/) fail("in struct " inside ": " line)
    sub(/^pub /, "", line)
    sub(/,$/, "", line)
    t = line
    sub(/: .*/, "", t)
    notes[inside, t] = before
    before = ""
    sub(/; /, "@", line)
    fields[inside] = fields[inside] line ";"
    next
}

# the settings' Default: the fields' numbers
defaulting {
    if ($0 ~ /^}/) { defaulting = 0; next }
    line = $0
    if (sub(/^ +/, "", line) && line ~ /^[a-z0-9_]+: [0-9]+,$/) { t = line; sub(/: .*/, "", t); sub(/.*: /, "", line); default_of[t] = line + 0 }
    next
}

/^impl Default for Settings \{$/ { defaulting = 1; forget(); next }

# a signature that goes on, and the clauses below it
exported == 2 { line = $0; sub(/^ +/, "", line); signature = signature " " line; lines = lines "\n" $0; whole(); next }

stating && /^\{$/ { stated[calls] = lines; stating = 0; next }

stating { lines = lines "\n" $0; next }

last && /^ghost use / { ghosts = ghosts "\n" $0 }

last && /^use / { uses = uses "\n" $0 }

/^\/\// {
    line = $0
    sub(/^\/\/ ?/, "", line)
    comment = comment line "\n"
    next
}

/^#\[repr\(C\)\]$/ { shared = 1; next }

shared && /^#\[derive\(/ { next }

shared && /^pub struct / {
    name = $3
    if (!last && (name in fields)) fail("two structs " name)
    if (last || !(name in fields)) { fields[name] = ""; about[name] = comment; inside = name }
    before = ""
    forget()
    next
}

last && /^#\[unsafe\(no_mangle\)\]$/ { exported = 1; next }

last && exported && /^pub extern "C" fn / { exported = 2; signature = lines = $0; whole(); next }

/^$/ { if (last && comment != "") text[calls + 1] = text[calls + 1] comment "\n"; forget(); next }

{ if (exported) fail("not an exported call: " $0); forget() }

# Where the signature is whole, keeps the call; its clauses follow.
function whole(    sig, p) {
    if (signature !~ /\)( -> [A-Za-z0-9_]+)?$/) return
    sig = signature
    sub(/^pub extern "C" fn /, "", sig)
    calls++
    p = index(sig, "(")
    named[calls] = substr(sig, 1, p - 1)
    sig = substr(sig, p + 1)
    gives[calls] = sig
    if (sig ~ /\) -> /) sub(/.*\) -> /, "", gives[calls])
    else gives[calls] = ""
    sub(/\)[^)]*$/, "", sig)
    sub(/^ +/, "", sig)
    sub(/,? *$/, "", sig)
    takes[calls] = sig
    about[named[calls]] = comment
    forget()
    stating = 1
}

# WRITING
# An array that is lent whole is the numbers of a record of the box: the struct of the parameter's name, which has its size.
function record_of(name, t,    record) {
    record = toupper(substr(name, 1, 1)) substr(name, 2)
    need(record)
    sub(/^&mut /, "", t)
    sub(/; /, "@", t)
    if (laid(record) != size_of(t)) fail("struct " record " has another size than " name)
    return record
}

# the parameters of call i, in the language asked for
function parameters(i,    n, p, k, name, t, mut, out) {
    n = split(takes[i], p, /, /)
    for (k = 1; k <= n; k++) {
        name = p[k]
        sub(/: .*/, "", name)
        t = p[k]
        sub(/^[^:]*: /, "", t)
        out = out (k > 1 ? ", " : "")
        if (t ~ /^&(mut )?\[[a-z0-9]+\]$/) {
            mut = (t ~ /^&mut /)
            sub(/^&(mut )?\[/, "", t)
            sub(/\]$/, "", t)
            if (!number(t)) fail("a slice of " t)
            if (to == "c") out = out (mut ? "" : "const ") c_type(t) " *" name ", size_t " name "_len"
            else out = out name ": *" (mut ? "mut " : "const ") t ", " name "_len: usize"
        } else if (t ~ /^&mut \[[a-z0-9]+; [0-9]+\]$/) {
            t = record_of(name, t)
            out = out (to == "c" ? c_name(t) " *" name : name ": *mut " t)
        } else {
            if (to == "c") out = out c_type(t) " " name
            else out = out name ": " rust_type(t)
        }
    }
    return out
}

# a declaration in lines of at most 130 characters, broken after a comma, the first behind a margin, the others further in
function wrapped(margin, s,    w, n, k, line, out) {
    n = split(s, w, ", ")
    line = margin w[1]
    for (k = 2; k <= n; k++) {
        if (length(line) + length(w[k]) > 127) { out = out line ",\n"; line = margin "    " w[k] }
        else line = line ", " w[k]
    }
    return out line
}

function c_comment(s,    l, n, k) {
    n = split(s, l, "\n")
    while (n > 0 && l[n] == "") n--
    if (n == 0) return
    if (n == 1) { print "/* " l[1] " */"; return }
    for (k = 1; k <= n; k++) print (k == 1 ? "/* " : " *" (l[k] == "" ? "" : " ")) l[k]
    print " */"
}

function c_struct(name,    i, n, f, t, field, note) {
    print ""
    c_comment(about[name])
    print "typedef struct " c_name(name) " {"
    n = split(fields[name], f, ";")
    for (i = 1; i < n; i++) {
        t = field = f[i]
        sub(/^[^:]*: /, "", t)
        sub(/: .*/, "", field)
        note = notes[name, field]
        sub(/\n$/, "", note)
        if (note != "") print "    /* " note " */"
        if (is_array(t)) print "    " c_type(element(t)) " " field "[" count(t) "];"
        else print "    " c_type(t) " " field ";"
    }
    print "} " c_name(name) ";"
    printf "SAVOIKY_SIZE(%s, %d);\n", c_name(name), laid(name)
    if (name == "Tally") c_tally()
    if (name == "Settings") print "\n/* " THEIRS " */\nstatic const SavoikySettings SAVOIKY_DEFAULT_SETTINGS = {" defaults() "};"
}

# what the box reads of its tally
function c_tally() {
    print "\n/* A screen's answered and refused calls (of a screen above 63 none are counted), and the sum over all screens. */"
    print "static inline uint32_t savoiky_tally_answered(const SavoikyTally *tally, uint32_t screen) {"
    print "    return screen < 64 ? tally->answered[screen] : 0;\n}"
    print "static inline uint32_t savoiky_tally_refused(const SavoikyTally *tally, uint32_t screen) {"
    print "    return screen < 64 ? tally->refused[screen] : 0;\n}"
    print "static inline uint64_t savoiky_tally_total(const SavoikyTally *tally) {"
    print "    uint64_t total = 0;"
    print "    for (uint32_t screen = 0; screen < 64; screen++) total += (uint64_t)tally->answered[screen] + tally->refused[screen];"
    print "    return total;\n}"
}

# The numbers of the settings' Default, in the order of the fields: named for Rust.
function defaults(    i, n, f, field, out) {
    n = split(fields["Settings"], f, ";")
    for (i = 1; i < n; i++) {
        field = f[i]
        sub(/: .*/, "", field)
        if (!(field in default_of)) fail("the settings' Default gives no " field)
        out = out (i > 1 ? ", " : "") (to == "c" ? "" : field ": ") default_of[field]
    }
    return out
}

# A text that begins with a struct's name, in capitals, has that struct after it, before the structs of the call that needs it first.
function announced(s,    k) {
    match(s, /^[A-Z]+/)
    s = substr(s, 1, RLENGTH)
    for (k = 1; k <= structs; k++) if (toupper(order[k]) == s) { c_struct(order[k]); written[order[k]] = 1 }
}

function write_c(    i, t, n, k) {
    print "/* savoiky.h: the calls of Savoiky, for C11 and C++11 on x86-64 Linux. Link with libexports.a, which bindings/staticlib writes."
    print " * Written by bindings/generate: change crates/exports/src/lib.rt, not this file. */"
    print "#ifndef SAVOIKY_H\n#define SAVOIKY_H\n"
    print "#include <stdbool.h>\n#include <stddef.h>\n#include <stdint.h>\n"
    print "#ifdef __cplusplus\n#define SAVOIKY_SIZE(type, bytes) static_assert(sizeof(type) == bytes, \"size of \" #type)\nextern \"C\" {"
    print "#else\n#define SAVOIKY_SIZE(type, bytes) _Static_assert(sizeof(type) == bytes, \"size of \" #type)\n#endif"
    for (i = 1; i <= calls; i++) {
        n = split(text[i], t, "\n\n")
        for (k = 1; k < n; k++) { print ""; c_comment(t[k]); announced(t[k]) }
        for (k = 1; k <= structs; k++) if (wanted_by[k] == i && !(order[k] in written)) c_struct(order[k])
        print ""
        c_comment(about[named[i]])
        print wrapped("", (gives[i] == "" ? "void" : c_type(gives[i])) " " named[i] "(" (takes[i] == "" ? "void" : parameters(i)) ");")
    }
    print "\n#ifdef __cplusplus\n}\n#endif\n\n#undef SAVOIKY_SIZE\n#endif"
}

# has it fields of numbers only?
function plain(name,    i, n, f, t) {
    n = split(fields[name], f, ";")
    for (i = 1; i < n; i++) {
        t = f[i]
        sub(/^[^:]*: /, "", t)
        if (!number(t)) return 0
    }
    return 1
}

function rust_struct(name,    i, n, f) {
    print "\n#[repr(C)]\n#[derive(Clone, Copy, PartialEq, Debug" (plain(name) && name != "Settings" ? ", Default" : "") ")]"
    print "pub struct " name " {"
    n = split(fields[name], f, ";")
    for (i = 1; i < n; i++) { sub(/@/, "; ", f[i]); print "    pub " f[i] "," }
    print "}"
    printf "const _: () = assert!(std::mem::size_of::<%s>() == %d && std::mem::align_of::<%s>() == %d);\n", name, laid(name), name, aligned[name]
    if (name == "Settings") print "\n// " THEIRS "\npub const DEFAULT_SETTINGS: Settings = Settings { " defaults() " };"
}

# The questions out of the text that begins with CODES, in its order, which is that of asking: lines " NN  question? (more)" with the number in
# columns 2 and 3, which may go on in lines further in.
function questions(    i, t, n, k, count_of, going, numbers, question, told) {
    for (i = 1; i <= calls; i++) {
        n = split(text[i], t, "\n")
        for (k = 1; k <= n; k++) {
            if (t[k] ~ /^ [ 0-9][0-9]  [^ ]/) { going = 1; numbers[++count_of] = substr(t[k], 1, 3) + 0; question[count_of] = substr(t[k], 6) }
            else if (t[k] ~ /^     [^ ]/ && going) question[count_of] = question[count_of] substr(t[k], 5)
            else going = 0
        }
    }
    if (count_of == 0) fail("no questions")
    print "\n// What each code says: the question that was answered no. In the order of asking.\npub const QUESTIONS: [(u32, &str); " count_of "] = ["
    for (k = 1; k <= count_of; k++) {
        if (numbers[k] in told) fail("two questions " numbers[k])
        told[numbers[k]] = 1
        sub(/\?.*/, "?", question[k])
        print "    (" numbers[k] ", \"" question[k] "\"),"
    }
    print "];"
}

function write_rust(    i) {
    print "// The exported calls, as crates/exports declares them; bindings/c/savoiky.h says what each takes and gives."
    print "// Written by bindings/generate: change crates/exports/src/lib.rt, not this file."
    questions()
    for (i = 1; i <= structs; i++) rust_struct(order[i])
    print "\nextern \"C\" {"
    for (i = 1; i <= calls; i++)
        print wrapped("    ", "pub fn " named[i] "(" parameters(i) ")" (gives[i] == "" ? "" : " -> " rust_type(gives[i])) ";")
    print "}"
}

# The call of a call's like-named one, in rt fmt's layout: on a line where its arguments have at most 60 characters; else, where each has at most 10, in
# lines of at most 100, and else each in a line.
function call_of(name, takes,    n, p, k, list, width, long, line, out) {
    n = split(takes, p, /, /)
    for (k = 1; k <= n; k++) {
        sub(/: .*/, "", p[k])
        list = list (k > 1 ? ", " : "") p[k]
        if (length(p[k]) > 10) long = 1
    }
    name = "    exports::" name "("
    if (length(list) <= 60 && length(name list) < 100) return name list ")"
    if (long) {
        gsub(/, /, ",\n        ", list)
        return name "\n        " list ",\n    )"
    }
    line = "       "
    for (k = 1; k <= n; k++) {
        if (length(line) + length(p[k]) + 2 > 100) { out = out line "\n"; line = "       " }
        line = line " " p[k] ","
    }
    return name "\n" out line "\n    )"
}

function write_crate(    i) {
    print "// exports_c: the calls of the library as a static library, for C and for Rust. A crate is a library or a static library and not both, so"
    print "// `exports` is the library, on which the programs stand, and this crate has a function of the same C name for each of its calls, which makes"
    print "// that call."
    print "// Written by bindings/generate: change crates/exports/src/lib.rt, which also says what each call is, and not this file."
    print "// Place: above exports; no crate stands on it."
    print "// Proves: each call keeps the clauses of its like in `exports`, which stand here word for word."
    print "// Assumes nothing."
    print "#![tactic(auto)]"
    print ghosts
    print uses
    for (i = 1; i <= calls; i++) {
        if (!(i in stated)) fail("no body of " named[i])
        print "\n#[unsafe(no_mangle)]\n" stated[i] "\n{\n" call_of(named[i], takes[i]) "\n}"
    }
}

END {
    if (failed) exit 1
    if (calls == 0) fail("no exported call")
    # which structs are needed, and in what order, shows when every signature has been read
    for (reading = 1; reading <= calls; reading++) {
        parameters(reading)
        if (gives[reading] != "" && !number(gives[reading])) need(gives[reading])
    }
    if (to == "c") write_c()
    else if (to == "rust") write_rust()
    else write_crate()
}
