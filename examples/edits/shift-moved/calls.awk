# Writes the trace: 28 days of 700 calls and orders each, from eight in the morning on, one in a minute or so.
#   awk -f calls.awk >trace.csv
function draw(most) {
    state = state * 16807 % 2147483647
    return state % most
}
BEGIN {
    state = 9
    print "source,time,take,handle"
    for (day = 0; day < 28; day++) {
        time = day * 86400 + 28800
        for (call = 0; call < 700; call++) {
            time += draw(121)
            printf "%s,%d,%d,%d\n", draw(4) ? "phone" : "web", time, 5 + draw(60), 10 + draw(160)
        }
    }
}
