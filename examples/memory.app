# Watches the memory of memory.v, and one of its words besides.
app watch;
var words, one;

startup {
  register cbEndOfCompile null 0 proc begin 0;
}

proc begin {
  words = by_name "top.words" null;
  one = by_name "top.words[2]" null;
  register cbValueChange words 0 proc written 0;
  register cbValueChange one 0 proc one_written 0;
}

proc written {
  print index;
  print value;
}

proc one_written {
  print value;
}
