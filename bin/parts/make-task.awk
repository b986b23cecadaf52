# The bytes of a task file, each as \0 and three octal digits, from a readable source.

function stop(why) {
    printf "bin/make-task: line %d: %s\n", FNR, why | "cat 1>&2"
    failed = 1
    exit 1
}

function byte(number) {
    if (number > 255) stop(number " does not fit in a byte")
    return sprintf("\\0%03o", number)
}

# two bytes, low byte first
function word(number) {
    if (number > 65535) stop("the file is too long")
    return byte(number % 256) byte(int(number / 256))
}

function bytes_in(text) { return length(text) / length(byte(0)) }

# the pair VARIABLE=VALUE as the numbers at_variable and at_value
function read_pair(text,    sign) {
    sign = index(text, "=")
    at_variable = substr(text, 1, sign - 1)
    at_value = substr(text, sign + 1)
    if (!sign || !(at_variable in number)) stop("no variable in " text)
    at_variable = number[at_variable]
    if (!((at_variable, at_value) in value)) stop("no value in " text)
    at_value = value[at_variable, at_value]
}

# fields of the line as pairs by variable: set[x] is the value that x has
function read_pairs(from, to, set,    i) {
    split("", set)
    for (i = from; i <= to; i++) {
        read_pair($i)
        if (at_variable in set) stop($i " is the second value of its variable")
        set[at_variable] = at_value
    }
}

# pairs in rising order of variable, whatever their order in the source
function pair_bytes(set,    x, text) {
    for (x = 0; x < variables; x++)
        if (x in set) text = text byte(x) byte(set[x])
    return text
}

function declare(    i) {
    if ($2 in number) stop("variable " $2 " stands twice")
    for (i = 3; i <= NF; i++) {
        if ((variables, $i) in value) stop("value " $i " stands twice")
        value[variables, $i] = i - 3
    }
    sizes = sizes byte(NF - 2)
    number[$2] = variables++
}

function add_action(    arrow, before, after) {
    for (arrow = 3; arrow <= NF && $arrow != "->"; arrow++);
    if (arrow > NF) stop("an action is: action NAME PAIRS -> PAIRS")
    read_pairs(3, arrow - 1, before)
    read_pairs(arrow + 1, NF, after)
    before_bytes = pair_bytes(before)
    after_bytes = pair_bytes(after)
    actions = actions byte(bytes_in(before_bytes) / 2) byte(bytes_in(after_bytes) / 2) before_bytes after_bytes
}

BEGIN { variables = 0 }
{ sub(/#.*/, "") }
NF == 0 { next }
$1 == "variable" { declare(); next }
$1 == "start" { read_pairs(2, NF, start); next }
$1 == "goal" { read_pairs(2, NF, goal); next }
$1 == "action" { add_action(); next }
{ stop("no line begins with " $1) }

END {
    if (failed) exit 1
    for (x = 0; x < variables; x++) {
        if (!(x in start)) stop("a variable has no start value")
        starts = starts byte(start[x])
    }
    body[1] = sizes
    body[2] = starts
    body[3] = pair_bytes(goal)
    body[4] = actions
    place = 16
    for (b = 1; b <= 4; b++) {
        contents = contents word(place) word(bytes_in(body[b]))
        place += bytes_in(body[b])
    }
    printf "%s", contents body[1] body[2] body[3] body[4]
}
