# Of a Rattle file in the layout of `rt fmt`: the types and constants that it declares, its modules, and the imports of
# what these name; of what it hands on the types and constants. Functions go, with their contracts, and derives.
BEGIN { count = 0 }
in_function { if ($0 == last) in_function = 0; next }
/^ *(pub )?(extern "C" )?fn / { match($0, /^ */); last = substr($0, 1, RLENGTH) "}"; in_function = 1; next }
/^ *\/\// || /^ *#/ || /^ghost use / { next }
in_import || /^(pub )?use / {
    sub(/^ +/, "")
    in_import = !/;$/
    imports[count] = imports[count] $0
    if (!in_import) count++
    next
}
{ text = text $0 "\n" }

# named NAME: the text has the word
function named(name) { return match(text, "(^|[^A-Za-z0-9_])" name "([^A-Za-z0-9_]|$)") }

END {
    for (i = 0; i < count; i++) {
        line = imports[i]
        sub(/;$/, "", line)
        handed_on = sub(/^pub use /, "", line)
        sub(/^use /, "", line)
        path = line
        sub(/[A-Za-z0-9_]*$|\{.*\}$/, "", path)
        names = substr(line, length(path) + 1)
        gsub(/[{},]/, " ", names)
        kept = ""
        number = split(names, list, " ")
        for (j = 1; j <= number; j++)
            if (handed_on ? list[j] ~ /^[A-Z]/ : named(list[j])) kept = kept (kept == "" ? "" : ", ") list[j]
        if (kept != "") print (handed_on ? "pub use " : "use ") path "{" kept "};"
    }
    printf "%s", text
}
