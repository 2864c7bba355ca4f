// A profile that is accepted with a warning of each kind.
// Look at the six warnings: `spare` and `twice` are unused (7), `base` is only used by an unused sibling (8), `fixed` and the
// parameter `x` depend on nothing around them (9), and `pass` is a function that answers what it is given (10).
local spare = 1, base = 2, twice = base + base;
{
  gain: local fixed = 4; fixed + fixed,
  pass(x):: x,
}
