# The states that a schedule walks through, a line a step: from the bytes of a task file in decimal (stage=bytes), the schedule's entries (stage=plan)
# and, where there are any, the names (stage=names, read by names.awk). The walk is done over again here: a schedule that is not good gives no table.

# the exit statuses of bin/plan: 2 for a bad input, 4 where a schedule that has passed bin/model does not pass here
function stop(status, why) {
    print why | "cat 1>&2"
    exit status
}

# a number of two bytes, low byte first
function word(at) { return byte[at] + 256 * byte[at + 1] }

function find_actions(    at, end) {
    at = word(12)
    end = at + word(14)
    for (actions = 0; at < end; actions++) {
        action_at[actions] = at
        at += 2 + 2 * (byte[at] + byte[at + 1])
    }
}

function pairs_hold(at, count,    i) {
    for (i = 0; i < count; i++)
        if (state[byte[at + 2 * i]] != byte[at + 2 * i + 1]) return 0
    return 1
}

function move(action, step,    at, preconditions, i) {
    at = action_at[action]
    preconditions = byte[at]
    if (action >= actions || !pairs_hold(at + 2, preconditions)) stop(4, "step " step " of the schedule does not apply")
    for (i = 0; i < byte[at + 1]; i++)
        state[byte[at + 2 + 2 * (preconditions + i)]] = byte[at + 3 + 2 * (preconditions + i)]
}

function name_of_action(action) { return named ? action_name[action] : "action " action }
function name_of_variable(x) { return named ? variable_name[x] : "variable " x }
function name_of_value(x) { return named ? value_name[x, state[x]] : state[x] }

function names_fit(    x) {
    if (variables_named != variables || actions_named != actions) return 0
    for (x = 0; x < variables; x++)
        if (values_named[x] != byte[word(0) + x]) return 0
    return 1
}

function put(line, column, text) {
    cell[line, column] = text
    if (length(text) > width[column]) width[column] = length(text)
}

function put_state(line, step, what,    x) {
    put(line, 0, step)
    put(line, 1, what)
    for (x = 0; x < variables; x++) put(line, 2 + x, name_of_value(x))
}

function print_table(    line, column) {
    for (line = 0; line <= steps + 1; line++) {
        for (column = 0; column <= variables; column++) printf "%-" width[column] "s  ", cell[line, column]
        print cell[line, column]
    }
}

BEGIN { steps = 0 }
stage == "bytes" { for (i = 1; i <= NF; i++) byte[bytes++] = $i; next }
stage == "plan" { entry[++steps] = $1 }

END {
    variables = word(2)
    find_actions()
    if (named && !names_fit()) stop(2, "the names are those of another task")
    put(0, 0, "step")
    put(0, 1, "move")
    for (x = 0; x < variables; x++) {
        put(0, 2 + x, name_of_variable(x))
        state[x] = byte[word(4) + x]
    }
    put_state(1, 0, "start")
    for (step = 1; step <= steps; step++) {
        if (entry[step] > 0) move(entry[step] - 1, step)
        put_state(1 + step, step, entry[step] > 0 ? name_of_action(entry[step] - 1) : "-")
    }
    if (!pairs_hold(word(8), word(10) / 2)) stop(4, "the schedule does not reach the goal")
    print_table()
}
