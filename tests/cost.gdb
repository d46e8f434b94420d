# A line for each step of the model's loop: gdb -q -batch -x tests/cost.gdb --args model/target/debug/room cost CLUSTER PLAN
tbreak kobdrieft_model::rules::plan_cost
run
# the line 'steps_cost += most', five below the first of plan_cost
break +5
commands
  silent
  printf "most %lu, steps_cost %lu, total %lu\n", most, steps_cost, total
  continue
end
continue
