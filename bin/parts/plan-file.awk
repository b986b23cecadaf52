# A schedule (stage=plan) with names (stage=names, read by names.awk) as planners of the field write a plan: (NAME ARGUMENT ..) a line for each move, then
# what they cost in the words of Fast Downward.
$1 > 0 {
    print "(" action_name[$1 - 1] ")"
    sum += cost[$1 - 1]
}
END {
    kind = "unit"
    for (a = 0; a < actions_named; a++)
        if (cost[a] != 1) kind = "general"
    printf "; cost = %d (%s cost)\n", sum, kind
}
