begin_version
3
end_version
begin_metric
1
end_metric
3
begin_variable
gate
-1
2
Atom shut(gate)
Atom open(gate)
end_variable
begin_variable
basin
-1
2
Atom full(basin)
Atom empty(basin)
end_variable
begin_variable
end_variable
-1
2

<none of those>
end_variable
1
begin_mutex_group
2
0 0
0 1
end_mutex_group
begin_state
0
0
0
end_state
begin_goal
2
1 1
0 0
end_goal
4
begin_operator
lift gate
0
1
0 0 0 1
5
end_operator
begin_operator
drain basin
1
0 1
1
0 1 -1 1
2
end_operator
begin_operator
drop gate
0
1
0 0 1 0
5
end_operator
begin_operator
lamp
0
1
0 2 -1 1
1
end_operator
0
