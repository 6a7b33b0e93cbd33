# Adds the three failures of eko.awk to the enum of failure.rs, after its last one. Everything else stays.

{ print }

/^    SignalContextMiss = 26,$/ {
    print "    EkoTruncated = 30,\n    BadUleb = 31,\n    TooManySaved = 32,"
    places++
}

END {
    if (places != 1) {
        print "failure.awk: " places + 0 " places found instead of 1 in " FILENAME > "/dev/stderr"
        exit 1
    }
}
