cd /tmp/prof
c=$1
RT_JOBS=1 rt dev $c > /dev/null 2>&1
for f in crates/$c/proofs/*/Proof.antt; do echo "" >> $f; s=$(date +%s.%N); RT_JOBS=1 rt dev $c > /tmp/prof.log 2>&1; e=$(date +%s.%N); echo "$(echo "$e - $s" | bc) $(basename $(dirname $f)) $(tail -1 /tmp/prof.log | cut -c1-60)"; done | sort -rn | head -${2:-12}
