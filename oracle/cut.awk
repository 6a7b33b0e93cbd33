# Cuts out of an arch file of ps-unwind what cannot be compiled here: `restore`
# and the entry trampolines (assembly, and names that the host's unwinder has).
# An item goes with the comments and attributes above it; everything else stays.
# Items start in column 0 and end with ";" on the same line or "}" in column 0.

function flush_above() { printf "%s", above; above = "" }

inside { if ($0 == "}") inside = 0; next }

/^(\/\/\/|#\[)/ { above = above $0 "\n"; next }

/^pub unsafe fn restore\(/ || /^macro_rules! trampoline / || /^trampoline!\(/ {
    above = ""
    items++
    inside = ($0 !~ /;$/)
    next
}

{ flush_above(); print }

END {
    flush_above()
    if (items != 5 || inside) {
        print "cut.awk: " items + 0 " items found instead of 5 in " FILENAME > "/dev/stderr"
        exit 1
    }
}
