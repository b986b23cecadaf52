# Reads the names of a task, as text-names.awk and source-names.awk write them, in a script that is named behind this one. Nothing else is read here.

function next_line() { getline; return $0 }

# their first line is at hand
function read_names(    x, v, a) {
    named = 1
    variables_named = $0 + 0
    for (x = 0; x < variables_named; x++) {
        variable_name[x] = next_line()
        values_named[x] = next_line() + 0
        for (v = 0; v < values_named[x]; v++) value_name[x, v] = next_line()
    }
    actions_named = next_line() + 0
    for (a = 0; a < actions_named; a++) {
        action_name[a] = next_line()
        cost[a] = next_line() + 0
    }
}

stage == "names" { read_names(); next }
