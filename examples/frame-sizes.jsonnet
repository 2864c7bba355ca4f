// Frame sizes in samples. The gateway gives `rate`, the samples of a millisecond, as an external name.
// Look at `rate`: it is local 0 of the root, and each closure on the way to its use captures it from the one around it.
local size(ms) = rate * ms;
{
  fixed: [80, 160, 320],
  scaled: [size(10), size(20)],
  longest: size(ms=60),
}
