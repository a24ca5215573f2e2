# A monitor that removes itself at each change, and registers its successor, which fires from the next change on.
app again;
var r;

startup {
  register cbEndOfCompile null 0 proc begin 0;
}

proc begin {
  r = by_name "top.r" null;
  register cbValueChange r 0 proc seen 0;
}

proc seen {
  remove me;
  register cbValueChange r 0 proc seen 0;
}
