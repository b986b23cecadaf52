# The names in a source of bin/make-task, in the form that text-names.awk writes; each move costs 1.
{ sub(/#.*/, "") }
$1 == "variable" {
    variables++
    of_variables = of_variables $2 "\n" (NF - 2) "\n"
    for (i = 3; i <= NF; i++) of_variables = of_variables $i "\n"
}
$1 == "action" {
    actions++
    of_actions = of_actions $2 "\n1\n"
}
END { printf "%d\n%s%d\n%s", variables, of_variables, actions, of_actions }
