begin_version
3
end_version
begin_metric
0
end_metric
10
begin_variable
var0
-1
2
Atom free(mesh-licence)
Atom held-by(mesh-licence, wing-mesh)
end_variable
begin_variable
var1
-1
4
Atom free(solver-licence)
Atom held-by(solver-licence, wing)
Atom held-by(solver-licence, duct)
Atom held-by(solver-licence, valve)
end_variable
begin_variable
var2
-1
5
Atom free(folder-1)
Atom held-by(folder-1, wing-mesh)
Atom held-by(folder-1, wing)
Atom held-by(folder-1, duct)
Atom held-by(folder-1, valve)
end_variable
begin_variable
var3
-1
6
Atom full(folder-2)
Atom free(folder-2)
Atom held-by(folder-2, wing-mesh)
Atom held-by(folder-2, wing)
Atom held-by(folder-2, duct)
Atom held-by(folder-2, valve)
end_variable
begin_variable
var4
-1
5
Atom free(node-1)
Atom held-by(node-1, wing-mesh)
Atom held-by(node-1, wing)
Atom held-by(node-1, duct)
Atom held-by(node-1, valve)
end_variable
begin_variable
var5
-1
6
Atom off(node-2)
Atom free(node-2)
Atom held-by(node-2, wing-mesh)
Atom held-by(node-2, wing)
Atom held-by(node-2, duct)
Atom held-by(node-2, valve)
end_variable
begin_variable
var6
-1
2
Atom waiting(wing-mesh)
Atom done(wing-mesh)
end_variable
begin_variable
var7
-1
2
Atom waiting(wing)
Atom done(wing)
end_variable
begin_variable
var8
-1
2
Atom waiting(duct)
Atom done(duct)
end_variable
begin_variable
var9
-1
2
Atom waiting(valve)
Atom done(valve)
end_variable
0
begin_state
0
3
3
0
4
0
0
0
0
0
end_state
begin_goal
8
0 0
1 0
2 0
4 0
6 1
7 1
8 1
9 1
end_goal
38
begin_operator
wipe folder-2
0
1
0 3 0 1
1
end_operator
begin_operator
switch-on node-2
0
1
0 5 0 1
1
end_operator
begin_operator
give mesh-licence wing-mesh
1
6 0
1
0 0 0 1
1
end_operator
begin_operator
give folder-1 wing-mesh
1
6 0
1
0 2 0 1
1
end_operator
begin_operator
give folder-2 wing-mesh
1
6 0
1
0 3 1 2
1
end_operator
begin_operator
give node-1 wing-mesh
1
6 0
1
0 4 0 1
1
end_operator
begin_operator
give node-2 wing-mesh
1
6 0
1
0 5 1 2
1
end_operator
begin_operator
run wing-mesh mesh-licence folder-1 node-1
0
4
0 6 0 1
0 0 1 0
0 2 1 0
0 4 1 0
1
end_operator
begin_operator
run wing-mesh mesh-licence folder-1 node-2
0
4
0 6 0 1
0 0 1 0
0 2 1 0
0 5 2 1
1
end_operator
begin_operator
run wing-mesh mesh-licence folder-2 node-1
0
4
0 6 0 1
0 0 1 0
0 3 2 1
0 4 1 0
1
end_operator
begin_operator
run wing-mesh mesh-licence folder-2 node-2
0
4
0 6 0 1
0 0 1 0
0 3 2 1
0 5 2 1
1
end_operator
begin_operator
give solver-licence wing
1
7 0
1
0 1 0 1
1
end_operator
begin_operator
give folder-1 wing
1
7 0
1
0 2 0 2
1
end_operator
begin_operator
give folder-2 wing
1
7 0
1
0 3 1 3
1
end_operator
begin_operator
give node-1 wing
1
7 0
1
0 4 0 2
1
end_operator
begin_operator
give node-2 wing
1
7 0
1
0 5 1 3
1
end_operator
begin_operator
run wing solver-licence folder-1 node-1
1
6 1
4
0 7 0 1
0 1 1 0
0 2 2 0
0 4 2 0
1
end_operator
begin_operator
run wing solver-licence folder-1 node-2
1
6 1
4
0 7 0 1
0 1 1 0
0 2 2 0
0 5 3 1
1
end_operator
begin_operator
run wing solver-licence folder-2 node-1
1
6 1
4
0 7 0 1
0 1 1 0
0 3 3 1
0 4 2 0
1
end_operator
begin_operator
run wing solver-licence folder-2 node-2
1
6 1
4
0 7 0 1
0 1 1 0
0 3 3 1
0 5 3 1
1
end_operator
begin_operator
give solver-licence duct
1
8 0
1
0 1 0 2
1
end_operator
begin_operator
give folder-1 duct
1
8 0
1
0 2 0 3
1
end_operator
begin_operator
give folder-2 duct
1
8 0
1
0 3 1 4
1
end_operator
begin_operator
give node-1 duct
1
8 0
1
0 4 0 3
1
end_operator
begin_operator
give node-2 duct
1
8 0
1
0 5 1 4
1
end_operator
begin_operator
run duct solver-licence folder-1 node-1
0
4
0 8 0 1
0 1 2 0
0 2 3 0
0 4 3 0
1
end_operator
begin_operator
run duct solver-licence folder-1 node-2
0
4
0 8 0 1
0 1 2 0
0 2 3 0
0 5 4 1
1
end_operator
begin_operator
run duct solver-licence folder-2 node-1
0
4
0 8 0 1
0 1 2 0
0 3 4 1
0 4 3 0
1
end_operator
begin_operator
run duct solver-licence folder-2 node-2
0
4
0 8 0 1
0 1 2 0
0 3 4 1
0 5 4 1
1
end_operator
begin_operator
give solver-licence valve
1
9 0
1
0 1 0 3
1
end_operator
begin_operator
give folder-1 valve
1
9 0
1
0 2 0 4
1
end_operator
begin_operator
give folder-2 valve
1
9 0
1
0 3 1 5
1
end_operator
begin_operator
give node-1 valve
1
9 0
1
0 4 0 4
1
end_operator
begin_operator
give node-2 valve
1
9 0
1
0 5 1 5
1
end_operator
begin_operator
run valve solver-licence folder-1 node-1
0
4
0 9 0 1
0 1 3 0
0 2 4 0
0 4 4 0
1
end_operator
begin_operator
run valve solver-licence folder-1 node-2
0
4
0 9 0 1
0 1 3 0
0 2 4 0
0 5 5 1
1
end_operator
begin_operator
run valve solver-licence folder-2 node-1
0
4
0 9 0 1
0 1 3 0
0 3 5 1
0 4 4 0
1
end_operator
begin_operator
run valve solver-licence folder-2 node-2
0
4
0 9 0 1
0 1 3 0
0 3 5 1
0 5 5 1
1
end_operator
0
