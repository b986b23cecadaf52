# The way back from moves.awk, for the tests: a schedule's entries from the names of its moves, a line a step, where operators have different names.
{
    entry = 0
    for (a = 0; a < actions_named; a++)
        if (action_name[a] "" == $0 "") entry = a + 1
    print entry
}
