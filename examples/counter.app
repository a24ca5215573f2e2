# Watches the counter of counter.v: tells each value that it takes, and leaves it at the fourth.
app tally;
var count, changes;

startup {
  register cbEndOfCompile null 0 proc begin 0;
}

proc begin {
  count = by_name "top.count" null;
  set changes = 0;
  register cbValueChange count 0 proc changed 4;
}

proc changed {
  set changes = changes + 1;
  if (changes == data) {
    remove me;
    print "seen enough";
  } else {
    print value;
  }
}
