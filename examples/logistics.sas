begin_version
3
end_version
begin_metric
1
end_metric
6
begin_variable
var0
-1
2
Atom at(truck2, airport2)
Atom at(truck2, depot2)
end_variable
begin_variable
var1
-1
2
Atom at(truck1, airport1)
Atom at(truck1, depot1)
end_variable
begin_variable
var2
-1
2
Atom at(plane1, airport1)
Atom at(plane1, airport2)
end_variable
begin_variable
var3
-1
7
Atom at(parcel3, airport1)
Atom at(parcel3, airport2)
Atom at(parcel3, depot1)
Atom at(parcel3, depot2)
Atom in(parcel3, plane1)
Atom in(parcel3, truck1)
Atom in(parcel3, truck2)
end_variable
begin_variable
var4
-1
7
Atom at(parcel2, airport1)
Atom at(parcel2, airport2)
Atom at(parcel2, depot1)
Atom at(parcel2, depot2)
Atom in(parcel2, plane1)
Atom in(parcel2, truck1)
Atom in(parcel2, truck2)
end_variable
begin_variable
var5
-1
7
Atom at(parcel1, airport1)
Atom at(parcel1, airport2)
Atom at(parcel1, depot1)
Atom at(parcel1, depot2)
Atom in(parcel1, plane1)
Atom in(parcel1, truck1)
Atom in(parcel1, truck2)
end_variable
0
begin_state
0
1
1
1
2
2
end_state
begin_goal
3
3 2
4 1
5 3
end_goal
42
begin_operator
drive-truck truck1 airport1 depot1 city1
0
1
0 1 0 1
3
end_operator
begin_operator
drive-truck truck1 depot1 airport1 city1
0
1
0 1 1 0
3
end_operator
begin_operator
drive-truck truck2 airport2 depot2 city2
0
1
0 0 0 1
3
end_operator
begin_operator
drive-truck truck2 depot2 airport2 city2
0
1
0 0 1 0
3
end_operator
begin_operator
fly-airplane plane1 airport1 airport2
0
1
0 2 0 1
20
end_operator
begin_operator
fly-airplane plane1 airport2 airport1
0
1
0 2 1 0
20
end_operator
begin_operator
load-airplane parcel1 plane1 airport1
1
2 0
1
0 5 0 4
1
end_operator
begin_operator
load-airplane parcel1 plane1 airport2
1
2 1
1
0 5 1 4
1
end_operator
begin_operator
load-airplane parcel2 plane1 airport1
1
2 0
1
0 4 0 4
1
end_operator
begin_operator
load-airplane parcel2 plane1 airport2
1
2 1
1
0 4 1 4
1
end_operator
begin_operator
load-airplane parcel3 plane1 airport1
1
2 0
1
0 3 0 4
1
end_operator
begin_operator
load-airplane parcel3 plane1 airport2
1
2 1
1
0 3 1 4
1
end_operator
begin_operator
load-truck parcel1 truck1 airport1
1
1 0
1
0 5 0 5
1
end_operator
begin_operator
load-truck parcel1 truck1 depot1
1
1 1
1
0 5 2 5
1
end_operator
begin_operator
load-truck parcel1 truck2 airport2
1
0 0
1
0 5 1 6
1
end_operator
begin_operator
load-truck parcel1 truck2 depot2
1
0 1
1
0 5 3 6
1
end_operator
begin_operator
load-truck parcel2 truck1 airport1
1
1 0
1
0 4 0 5
1
end_operator
begin_operator
load-truck parcel2 truck1 depot1
1
1 1
1
0 4 2 5
1
end_operator
begin_operator
load-truck parcel2 truck2 airport2
1
0 0
1
0 4 1 6
1
end_operator
begin_operator
load-truck parcel2 truck2 depot2
1
0 1
1
0 4 3 6
1
end_operator
begin_operator
load-truck parcel3 truck1 airport1
1
1 0
1
0 3 0 5
1
end_operator
begin_operator
load-truck parcel3 truck1 depot1
1
1 1
1
0 3 2 5
1
end_operator
begin_operator
load-truck parcel3 truck2 airport2
1
0 0
1
0 3 1 6
1
end_operator
begin_operator
load-truck parcel3 truck2 depot2
1
0 1
1
0 3 3 6
1
end_operator
begin_operator
unload-airplane parcel1 plane1 airport1
1
2 0
1
0 5 4 0
1
end_operator
begin_operator
unload-airplane parcel1 plane1 airport2
1
2 1
1
0 5 4 1
1
end_operator
begin_operator
unload-airplane parcel2 plane1 airport1
1
2 0
1
0 4 4 0
1
end_operator
begin_operator
unload-airplane parcel2 plane1 airport2
1
2 1
1
0 4 4 1
1
end_operator
begin_operator
unload-airplane parcel3 plane1 airport1
1
2 0
1
0 3 4 0
1
end_operator
begin_operator
unload-airplane parcel3 plane1 airport2
1
2 1
1
0 3 4 1
1
end_operator
begin_operator
unload-truck parcel1 truck1 airport1
1
1 0
1
0 5 5 0
1
end_operator
begin_operator
unload-truck parcel1 truck1 depot1
1
1 1
1
0 5 5 2
1
end_operator
begin_operator
unload-truck parcel1 truck2 airport2
1
0 0
1
0 5 6 1
1
end_operator
begin_operator
unload-truck parcel1 truck2 depot2
1
0 1
1
0 5 6 3
1
end_operator
begin_operator
unload-truck parcel2 truck1 airport1
1
1 0
1
0 4 5 0
1
end_operator
begin_operator
unload-truck parcel2 truck1 depot1
1
1 1
1
0 4 5 2
1
end_operator
begin_operator
unload-truck parcel2 truck2 airport2
1
0 0
1
0 4 6 1
1
end_operator
begin_operator
unload-truck parcel2 truck2 depot2
1
0 1
1
0 4 6 3
1
end_operator
begin_operator
unload-truck parcel3 truck1 airport1
1
1 0
1
0 3 5 0
1
end_operator
begin_operator
unload-truck parcel3 truck1 depot1
1
1 1
1
0 3 5 2
1
end_operator
begin_operator
unload-truck parcel3 truck2 airport2
1
0 0
1
0 3 6 1
1
end_operator
begin_operator
unload-truck parcel3 truck2 depot2
1
0 1
1
0 3 6 3
1
end_operator
0
