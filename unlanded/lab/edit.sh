#!/bin/bash
# edit.sh ROOT CRATE EDIT: tries one must-fail edit as rt does
root=$1 c=$2 e=$3
w=$(mktemp -d)
cp -r $root/crates/$c/{src,specs,proofs} $w/ 2>/dev/null
python3 - $root/crates/$c/must-fail/$e.edit $w <<'P'
import sys
f=old=None
for l in open(sys.argv[1]):
    l=l.rstrip('\n')
    if l.startswith('file: '): f=sys.argv[2]+'/'+l[6:]
    elif l.startswith('old: '): old=l[5:]
    elif l.startswith('new:'):
        new=l[5:]; s=open(f).read(); assert s.count(old)==1,(l,s.count(old)); open(f,'w').write(s.replace(old,new))
P
R=/opt/rattle/on/x86_64
args=(--crate-name $c $w/src/lib.rt --extern std=$R/rlib/std.rlib)
for d in $(sed -n "s/^$c: *//p" $root/crates.txt); do if [ -d $root/target/rlib/$d.rlib ]; then args+=(--extern $d=$root/target/rlib/$d.rlib); else args+=(--extern $d=$R/rlib/$d.rlib); fi; done
s=$(date +%s.%N)
$R/bin/rattle check "${args[@]}" -L dependency=$root/target/rlib -L dependency=$R/rlib --antt-project /opt/rattle/logic/antt-project.json --logic-built $R/logic-built > $w/log 2>&1
echo "$c/$e exit $? $(echo "$(date +%s.%N) - $s" | bc) s $(grep -m1 -o '^[^ ]*: error.*' $w/log | sed "s|$w/||" | cut -c1-220) $(tail -1 $w/log | cut -c1-40)"
rm -rf $w
