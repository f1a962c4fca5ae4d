begin_version
3
end_version
begin_metric
0
end_metric
2
begin_variable
gate
-1
2
shut
open
end_variable
begin_variable
flow
0
2
dry
wet
end_variable
0
begin_state
0
0
end_state
begin_goal
1
1 1
end_goal
1
begin_operator
lift gate
0
2
1 1 0 0 0 1
2 0 0 1 1 1 -1 1
5
end_operator
1
begin_rule
1
0 1
1 0 1
end_rule
