// A good profile, whose packed tree lost its last three bytes on the way.
// Look at the refusal: it says which record is cut off. Nothing of a refused tree is shown.
local ceiling = 24;
ceiling
