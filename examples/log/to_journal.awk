# Turns a log with the columns TIME NAME begin|end|died|refused OPERATION into a journal. Nobody has an operation twice at once. Whoever died
# ends all that it had in progress. What ends without a begin was in progress before the log, so its start comes first.
function note(what, name, operation) { does[++notes] = what; by[notes] = name; of[notes] = operation }
function tell(what, name, operation) {
    if (!(name in worker)) worker[name] = ++workers
    if (what == "start") { number[name, operation] = starts++; print worker[name] " start " operation ": started " number[name, operation] }
    else print worker[name] " finish " number[name, operation] ": finished"
}
$3 == "begin" { live[$2, $4] = 1; note("start", $2, $4) }
$3 == "end" { if (!(($2, $4) in live)) before[++early] = $2 " " $4; delete live[$2, $4]; note("finish", $2, $4) }
$3 == "died" {
    for (each in live) if (index(each, $2 SUBSEP) == 1) { split(each, its, SUBSEP); delete live[each]; note("finish", its[1], its[2]) }
}
END {
    for (n = 1; n <= early; n++) { split(before[n], its, " "); tell("start", its[1], its[2]) }
    for (n = 1; n <= notes; n++) tell(does[n], by[n], of[n])
}
