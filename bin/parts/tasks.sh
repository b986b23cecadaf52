# shellcheck shell=sh
# What is done with a task file's bytes: the inputs of the programs, and a schedule with names or as a table. To be sourced, with the repository in $here.

# the byte of a number
byte() { printf '%b' "\\0$(printf '%03o' "$1")"; }

# what bin/clauses reads: clauses_input HORIZON TASK
clauses_input() { byte "$1" && cat "$2"; }

# what bin/model reads: model_input HORIZON TASK OUTPUT
model_input() {
    length=$(($(wc -c <"$2")))
    byte "$1" && byte $((length % 256)) && byte $((length / 256)) && cat "$2" "$3"
}

# awk on bytes, whatever language is set
byte_awk() { LC_ALL=C awk "$@"; }

# an awk script with names: awk_with_names SCRIPT FILE ..
# shellcheck disable=SC2154
awk_with_names() { byte_awk -f "$here/bin/parts/names.awk" -f "$@"; }

# the names in a translator's text that has been accepted, and those in a source of bin/make-task, in one form; from standard input
text_names() { byte_awk -f "$here/bin/parts/text-names.awk"; }
source_names() { byte_awk -f "$here/bin/parts/source-names.awk"; }

# the states that a schedule walks through, step by step: table TASK SCHEDULE [NAMES]
table() { od -An -v -tu1 "$1" | awk_with_names "$here/bin/parts/table.awk" stage=bytes - stage=plan "$2" ${3:+stage=names "$3"}; }

# a schedule's moves by name, a line a step: moves SCHEDULE NAMES
moves() { awk_with_names "$here/bin/parts/moves.awk" stage=names "$2" stage=plan "$1"; }

# a schedule as planners write it to a file: plan_lines SCHEDULE NAMES
plan_lines() { awk_with_names "$here/bin/parts/plan-file.awk" stage=names "$2" stage=plan "$1"; }

# and the way back, for the tests: entries MOVES NAMES
entries() { awk_with_names "$here/bin/parts/entries.awk" stage=names "$2" stage=moves "$1"; }
