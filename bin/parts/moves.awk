# The moves of a schedule (stage=plan) by their names (stage=names, read by names.awk), a line a step: - for a step without a move.
{ print ($1 > 0 ? action_name[$1 - 1] : "-") }
