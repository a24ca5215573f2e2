app a; var r, one, two, three, x;
startup { register cbEndOfCompile null 0 proc init 0; }
proc init { r = by_name "top.r" null; one = register cbValueChange r 0 proc p1 0;
  two = register cbValueChange r 0 proc p2 0; three = register cbValueChange r 0 proc p3 0; }
proc p1 { remove two; x = register cbValueChange r 0 proc p4 4; }
proc p2 { print "p2"; } proc p3 { print "p3"; } proc p4 { print "p4"; }
