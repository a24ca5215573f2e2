# Three monitors of once.v that a loop registers, each with its number: which fires first is the order of choice's.
app three;
var r, number;

startup {
  register cbEndOfCompile null 0 proc begin 0;
}

proc begin {
  r = by_name "top.r" null;
  while (number != 3) {
    set number = number + 1;
    register cbValueChange r 0 proc seen number;
  }
}

proc seen {
  print data;
}
