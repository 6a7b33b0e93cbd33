# Tells four refusals of eko.rs apart: those of a byte at the limit (`u8`) and of a number (`uleb`) in `Bytes`, and that of a full
# state in `save` of `State`. Everything else stays.
# Methods are indented by 4 and end before a "}" in column 0; the refusal of a full state is the line after its test.

function tell(name) { told[name] += gsub(/Failure::BadEkoRecord/, "Failure::" name) }

/^impl / { owner = $2 }
/^}/ { owner = method = "" }
/^    [a-z ]*fn / { method = $0; sub(/^[a-z ]*fn /, "", method); sub(/[^a-z0-9_].*/, "", method) }

owner == "Bytes" && method == "u8" { tell("EkoTruncated") }
owner == "Bytes" && method == "uleb" { tell("BadUleb") }
owner == "State" && method == "save" && full { tell("TooManySaved") }

{ full = /if self\.count == MAX_SAVED/; print }

END {
    places = told["EkoTruncated"] + 0 ", " told["BadUleb"] + 0 ", " told["TooManySaved"] + 0
    if (places != "1, 2, 1") {
        print "eko.awk: " places " places found instead of 1, 2, 1 in " FILENAME > "/dev/stderr"
        exit 1
    }
}
