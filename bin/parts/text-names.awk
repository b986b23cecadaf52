# The names in a translator's text that bin/translate has accepted: the number of variables; of each its name, the number of its values and their names;
# the number of operators; of each its name and what it costs. Each stands on a line of its own. Counts alone say where names end: a name may be any bytes
# but LF, and NUL only where awk takes it, as mawk and gawk do.

function skip(lines) { while (lines-- > 0) getline }
function copy(lines) { while (lines-- > 0) { getline; print } }
function number() { getline; return $0 + 0 }
function copy_number() { copy(1); return $0 + 0 }

# one line, as many as a number on the next line says, and one more
function skip_block() { skip(1); skip(number()); skip(1) }

function copy_variable() { skip(1); copy(1); skip(1); copy(copy_number()); skip(1) }

# without a metric each move costs 1, whatever the text says
function copy_operator(metric,    cost) {
    skip(1)
    copy(1)
    skip(number())
    skip(number())
    cost = number()
    print (metric ? cost : 1)
    skip(1)
}

BEGIN {
    skip(4)
    metric = number()
    skip(1)
    variables = copy_number()
    for (x = 0; x < variables; x++) copy_variable()
    for (groups = number(); groups > 0; groups--) skip_block()
    skip(1 + variables + 1)
    skip_block()
    for (operators = copy_number(); operators > 0; operators--) copy_operator(metric)
}
