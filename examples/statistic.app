# A statistic of counter.v: how often its clock rises and falls, how often its count changes, and the last value, told at the end.
app statistic;
var clk, count, rises, falls, changes, reached;

startup {
  register cbEndOfCompile null 0 proc begin 0;
  register cbEndOfSimulation null 0 proc tell 0;
}

proc begin {
  clk = by_name "top.clk" null;
  count = by_name "top.count" null;
  register cbValueChange clk 0 proc ticked 0;
  register cbValueChange count 0 proc counted 0;
}

proc ticked {
  if (value == "1") {
    set rises = rises + 1;
  } else {
    set falls = falls + 1;
  }
}

proc counted {
  set changes = changes + 1;
  set reached = value;
}

proc tell {
  print "rises and falls of the clock:";
  print rises;
  print falls;
  print "changes of the count, and its last value:";
  print changes;
  print reached;
}
