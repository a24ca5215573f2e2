# A checker of bus.v: tells when both units drive the bus, and at the end how often one did, and how often both.
app checker;
var bus, one, both;

startup {
  register cbEndOfCompile null 0 proc begin 0;
  register cbEndOfSimulation null 0 proc tell 0;
}

proc begin {
  bus = by_name "top.bus" null;
  register cbValueChange bus 0 proc changed 0;
}

proc changed {
  if (value == "zzzz") {
    return;
  }
  if (value == "xxxx") {
    set both = both + 1;
    print "both drive the bus, at";
    print time;
  } else {
    set one = one + 1;
  }
}

proc tell {
  print "driven by one, and by both:";
  print one;
  print both;
}
