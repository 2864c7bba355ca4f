// A limiter with an inner and an outer ceiling, in dB below full scale.
// Look at the two uses of `ceiling` in `stage`: both must reach the inner one. A slot that led to the outer one would let
// the gain stage overflow for loud talkers alone.
local ceiling = 3, headroom = 1;
{
  local soft = ceiling + headroom,
  outer: ceiling,
  stage: {
    local ceiling = soft + headroom,
    knee: ceiling + headroom,
    range: [ceiling, $.outer],
  },
}
