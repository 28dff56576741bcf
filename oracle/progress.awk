# How far `rt lib` or `rt run` of the crate NAME is. Reads crates.txt, proof-seconds.txt and what rt has printed; -v name=NAME -v elapsed=SECONDS,
# -v first=SECONDS -v since=SECONDS: when rt named the first crate, and the one that it is at.
# Prints the crates that rt has proved in this run, the tenths of all crates that are done, the crate that rt is at (- where it has named none),
# and a text:
#   crate 12 of 90, net_gates, 3 min so far, about 11 min left
# rt takes the crates in the order of crates.txt's lists, each after those that it lists, and names each that it proves as it begins; one that it
# has proved before is not named. The time left is that of proof-seconds.txt for the crates that are not done, times how much slower than there
# this run is so far.

FNR == 1 { file++ }
file < 3 { sub(/#.*/, "") }
file == 1 && /:/ { colon = index($0, ":"); split(substr($0, 1, colon - 1), head, " "); needs[head[1]] = substr($0, colon + 1) }
file == 2 && NF == 2 { stored[$1] = $2; sum += $2; known++ }
file == 3 && /^rt: chose --jobs [0-9]+ for [a-z0-9_]+$/ { begun[$6] = 1; current = $6 }

# Puts a crate behind those it rests on, as rt does.
function visit(crate,    list, count, i) {
    if (crate in place) return
    place[crate] = 0
    count = split(needs[crate], list, " ")
    for (i = 1; i <= count; i++)
        if (list[i] in needs) visit(list[i])
    place[crate] = ++crates
    visited[crates] = crate
}

# Seconds of a crate; a new one counts as the mean.
function seconds(crate) {
    return crate in stored ? stored[crate] : known ? sum / known : 10
}

# Adds up what is done and what is not: all before the one that rt is at is done.
function count_up(    i, crate) {
    for (i = 1; i <= crates; i++) {
        crate = visited[i]
        if (i < place[current]) {
            ended++
            if (crate in begun) { proved++; usual += seconds(crate) }
        } else left += seconds(crate)
    }
}

END {
    visit(name)
    at = current in place ? current : "-"
    if (at == "-") { current = visited[1]; since = first = elapsed }
    count_up()
    # Half a minute at the usual speed is taken as seen, so that the first crates do not decide alone.
    slower = (since - first + 30) / (usual + 30)
    spent = elapsed - since
    if (spent > slower * seconds(current)) spent = slower * seconds(current)
    minutes = int((slower * left - spent) / 60 + 0.5)
    printf "%d %d %s crate %d of %d, %s, ", proved, int(10 * ended / crates), at, ended + 1, crates, current
    printf "%d min so far, %s\n", elapsed / 60, minutes < 1 ? "under a minute left" : "about " minutes " min left"
}
