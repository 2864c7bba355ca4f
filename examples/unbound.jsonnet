// A profile with an error: a misspelt name.
// Look at `celing`: no local has that name, so the place has no slot. `ceiling` is then unused, which is told too.
local ceiling = 24;
{
  top: celing,
}
