# A monitor that is interested in the first change alone, and removes itself; beside one that stays.
app watch;
var r;

startup {
  register cbEndOfCompile null 0 proc begin 0;
}

proc begin {
  r = by_name "top.r" null;
  register cbValueChange r 0 proc first 0;
  register cbValueChange r 0 proc every 0;
}

proc first {
  remove me;
  print "the first change";
}

proc every {
  print "a change";
}
