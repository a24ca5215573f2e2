# What mistakes look like, on once.v: no script has the procedure `beginn`, and no object has the name `top.q`, so that no handle
# is there to watch.
app mistaken;
var r;

startup {
  register cbEndOfCompile null 0 proc begin 0;
  register cbStartOfSimulation null 0 proc beginn 0;
}

proc begin {
  r = by_name "top.q" null;
  register cbValueChange r 0 proc seen 0;
}

proc seen {
  print "never";
}
