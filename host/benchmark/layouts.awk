# Reads lines of the benchmark, each behind the number of its layout and a bar. For every layout and case the least time counts;
# prints, for each case, the least, the median and the most over the layouts, of the Rust and of ours.
BEGIN {
    FS = "|"
    printf "%-46s %17s%9s   %15s%11s %8s\n", "nanoseconds of a call, by layout", "the Rust", "", "ours", "", "medians"
    printf "%-46s %8s %8s %8s   %8s %8s %8s %8s\n", "", "least", "median", "most", "least", "median", "most", "ratio"
}

{
    name = substr($2, 1, 46)
    split(substr($2, 47), fields, " ")
    if (!(name in known)) names[++cases] = name
    known[name]
    if ($1 > layouts) layouts = $1
    keep(name, "rust", $1, fields[1] + 0)
    keep(name, "ours", $1, fields[3] + 0)
}

END {
    for (i = 1; i <= cases; i++) {
        rust = spread(names[i], "rust")
        theirs = median
        ours = spread(names[i], "ours")
        printf "%s %s   %s %7.2fx\n", names[i], rust, ours, theirs / median
    }
}

function keep(name, side, layout, time) {
    if (!((name, side, layout) in least) || time < least[name, side, layout]) least[name, side, layout] = time
}

# The least, the median and the most of a case's times, in order; sets median.
function spread(name, side,    times, layout, k) {
    for (layout = 1; layout <= layouts; layout++) {
        for (k = layout; k > 1 && times[k - 1] > least[name, side, layout]; k--) times[k] = times[k - 1]
        times[k] = least[name, side, layout]
    }
    median = times[int((layouts + 1) / 2)]
    return sprintf("%8.1f %8.1f %8.1f", times[1], median, times[layouts])
}
