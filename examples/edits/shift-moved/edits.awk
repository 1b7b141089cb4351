# Writes the edits from the trace: on the 20th day all orders by web come an hour later.
#   awk -F, -f edits.awk trace.csv >edits.txt
FNR > 1 && $1 == "web" && int($2 / 86400) == 19 {
    print "set", FNR - 1, $1, $2 + 3600, $3, $4
}
