begin_version
3
end_version
begin_metric
1
end_metric
5
begin_variable
var0
-1
3
Atom at(boat, low-pound)
Atom in(boat, chamber)
Atom at(boat, high-pound)
end_variable
begin_variable
var1
-1
2
Atom shut(lower-gate)
NegatedAtom shut(lower-gate)
end_variable
begin_variable
var2
-1
2
Atom shut(upper-gate)
NegatedAtom shut(upper-gate)
end_variable
begin_variable
var3
-1
2
Atom level(low)
Atom level(high)
end_variable
begin_variable
var4
-1
2
Atom dark(lamp)
Atom lit(lamp)
end_variable
2
begin_mutex_group
3
0 0
0 1
0 2
end_mutex_group
begin_mutex_group
2
3 0
3 1
end_mutex_group
begin_state
0
0
0
0
0
end_state
begin_goal
3
2 0
1 0
0 2
end_goal
10
begin_operator
open-gate lower-gate low
1
3 0
1
0 1 0 1
5
end_operator
begin_operator
shut-gate lower-gate
0
1
0 1 1 0
5
end_operator
begin_operator
open-gate upper-gate high
1
3 1
1
0 2 0 1
5
end_operator
begin_operator
shut-gate upper-gate
0
1
0 2 1 0
5
end_operator
begin_operator
fill chamber
2
2 0
1 0
1
0 3 0 1
20
end_operator
begin_operator
empty chamber
2
2 0
1 0
1
0 3 1 0
20
end_operator
begin_operator
enter boat low-pound chamber
1
1 1
1
0 0 0 1
2
end_operator
begin_operator
leave boat chamber high-pound
1
2 1
1
0 0 1 2
2
end_operator
begin_operator
light lamp
0
1
0 4 -1 1
1
end_operator
begin_operator
douse lamp
0
1
0 4 -1 0
1
end_operator
0
