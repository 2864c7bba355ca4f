// A gain ladder in dB, with a ceiling of its own.
// Look at `ceiling`: the rungs use the inner one, the field `ceiling` shows the outer one, which the inner one shadows.
local step = 6, ceiling = 24;
{
  rungs: local ceiling = step + step; [step, ceiling],
  ceiling: ceiling,
}
