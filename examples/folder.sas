begin_version
3
end_version
begin_metric
0
end_metric
2
begin_variable
var0
-1
2
Atom free(folder)
NegatedAtom free(folder)
end_variable
begin_variable
var1
-1
2
Atom waiting(run)
Atom done(run)
end_variable
0
begin_state
0
0
end_state
begin_goal
1
1 1
end_goal
2
begin_operator
take folder
0
1
0 0 0 1
1
end_operator
begin_operator
run folder
0
2
0 1 0 1
0 0 1 0
1
end_operator
0
