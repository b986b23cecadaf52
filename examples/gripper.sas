begin_version
3
end_version
begin_metric
0
end_metric
7
begin_variable
var0
-1
2
Atom at-robby(rooma)
Atom at-robby(roomb)
end_variable
begin_variable
var1
-1
5
Atom carry(ball1, right)
Atom carry(ball2, right)
Atom carry(ball3, right)
Atom carry(ball4, right)
Atom free(right)
end_variable
begin_variable
var2
-1
5
Atom carry(ball1, left)
Atom carry(ball2, left)
Atom carry(ball3, left)
Atom carry(ball4, left)
Atom free(left)
end_variable
begin_variable
var3
-1
3
Atom at(ball1, rooma)
Atom at(ball1, roomb)
<none of those>
end_variable
begin_variable
var4
-1
3
Atom at(ball2, rooma)
Atom at(ball2, roomb)
<none of those>
end_variable
begin_variable
var5
-1
3
Atom at(ball3, rooma)
Atom at(ball3, roomb)
<none of those>
end_variable
begin_variable
var6
-1
3
Atom at(ball4, rooma)
Atom at(ball4, roomb)
<none of those>
end_variable
4
begin_mutex_group
4
3 0
3 1
2 0
1 0
end_mutex_group
begin_mutex_group
4
4 0
4 1
2 1
1 1
end_mutex_group
begin_mutex_group
4
5 0
5 1
2 2
1 2
end_mutex_group
begin_mutex_group
4
6 0
6 1
2 3
1 3
end_mutex_group
begin_state
0
4
4
0
0
0
0
end_state
begin_goal
4
3 1
4 1
5 1
6 1
end_goal
34
begin_operator
drop ball1 rooma left
1
0 0
2
0 3 -1 0
0 2 0 4
1
end_operator
begin_operator
drop ball1 rooma right
1
0 0
2
0 3 -1 0
0 1 0 4
1
end_operator
begin_operator
drop ball1 roomb left
1
0 1
2
0 3 -1 1
0 2 0 4
1
end_operator
begin_operator
drop ball1 roomb right
1
0 1
2
0 3 -1 1
0 1 0 4
1
end_operator
begin_operator
drop ball2 rooma left
1
0 0
2
0 4 -1 0
0 2 1 4
1
end_operator
begin_operator
drop ball2 rooma right
1
0 0
2
0 4 -1 0
0 1 1 4
1
end_operator
begin_operator
drop ball2 roomb left
1
0 1
2
0 4 -1 1
0 2 1 4
1
end_operator
begin_operator
drop ball2 roomb right
1
0 1
2
0 4 -1 1
0 1 1 4
1
end_operator
begin_operator
drop ball3 rooma left
1
0 0
2
0 5 -1 0
0 2 2 4
1
end_operator
begin_operator
drop ball3 rooma right
1
0 0
2
0 5 -1 0
0 1 2 4
1
end_operator
begin_operator
drop ball3 roomb left
1
0 1
2
0 5 -1 1
0 2 2 4
1
end_operator
begin_operator
drop ball3 roomb right
1
0 1
2
0 5 -1 1
0 1 2 4
1
end_operator
begin_operator
drop ball4 rooma left
1
0 0
2
0 6 -1 0
0 2 3 4
1
end_operator
begin_operator
drop ball4 rooma right
1
0 0
2
0 6 -1 0
0 1 3 4
1
end_operator
begin_operator
drop ball4 roomb left
1
0 1
2
0 6 -1 1
0 2 3 4
1
end_operator
begin_operator
drop ball4 roomb right
1
0 1
2
0 6 -1 1
0 1 3 4
1
end_operator
begin_operator
move rooma roomb
0
1
0 0 0 1
1
end_operator
begin_operator
move roomb rooma
0
1
0 0 1 0
1
end_operator
begin_operator
pick ball1 rooma left
1
0 0
2
0 3 0 2
0 2 4 0
1
end_operator
begin_operator
pick ball1 rooma right
1
0 0
2
0 3 0 2
0 1 4 0
1
end_operator
begin_operator
pick ball1 roomb left
1
0 1
2
0 3 1 2
0 2 4 0
1
end_operator
begin_operator
pick ball1 roomb right
1
0 1
2
0 3 1 2
0 1 4 0
1
end_operator
begin_operator
pick ball2 rooma left
1
0 0
2
0 4 0 2
0 2 4 1
1
end_operator
begin_operator
pick ball2 rooma right
1
0 0
2
0 4 0 2
0 1 4 1
1
end_operator
begin_operator
pick ball2 roomb left
1
0 1
2
0 4 1 2
0 2 4 1
1
end_operator
begin_operator
pick ball2 roomb right
1
0 1
2
0 4 1 2
0 1 4 1
1
end_operator
begin_operator
pick ball3 rooma left
1
0 0
2
0 5 0 2
0 2 4 2
1
end_operator
begin_operator
pick ball3 rooma right
1
0 0
2
0 5 0 2
0 1 4 2
1
end_operator
begin_operator
pick ball3 roomb left
1
0 1
2
0 5 1 2
0 2 4 2
1
end_operator
begin_operator
pick ball3 roomb right
1
0 1
2
0 5 1 2
0 1 4 2
1
end_operator
begin_operator
pick ball4 rooma left
1
0 0
2
0 6 0 2
0 2 4 3
1
end_operator
begin_operator
pick ball4 rooma right
1
0 0
2
0 6 0 2
0 1 4 3
1
end_operator
begin_operator
pick ball4 roomb left
1
0 1
2
0 6 1 2
0 2 4 3
1
end_operator
begin_operator
pick ball4 roomb right
1
0 1
2
0 6 1 2
0 1 4 3
1
end_operator
0
