"""fillone.py GEN CRATE FN FILE: replaces c@field in FILE's answers by the path to it, by the generated Lts."""
import re,sys
gen,crate,fn,path=sys.argv[1:5]
lts=open(f'{gen}/Rattle·{crate}·proofs/proofs/{fn}/Lts.antt').read()
recs={}
for m in re.finditer(r'^      pub record (\S+) : Type 0 where\n((?:        .*\n)+)',lts,re.M):
    fields=re.findall(r'^        pub (\S+) : (\S+)',m.group(2),re.M)
    recs[m.group(1)]=fields
needs={}
for m in re.finditer(r'Need-(\S+) =\s*\(c : (\S+)\)',lts): needs[m.group(1)]=m.group(2)
def find(rec,want):
    p='';seen=rec
    while True:
        fs=dict(recs[rec])
        if want in fs: return p+' .'+want
        if 'before' not in fs: raise SystemExit(f'{want} not from {seen}')
        p+=' .before'; rec=fs['before']
s=open(path).read()
out=[];cur=None
for l in s.split('\n'):
    m=re.match(r'(\S+) : tie\.Need-(\S+)',l)
    if m: cur=m.group(2)
    l=re.sub(r'c@([\w\-·]+)',lambda m:'c'+find(needs[cur],m.group(1)),l)
    out.append(l)
open(path,'w').write('\n'.join(out))
for n,r in needs.items():
    chain=[];x=r
    while True:
        fs=recs[x]; chain+= [f for f,_ in fs if f!='before']
        d=dict(fs)
        if 'before' not in d: break
        x=d['before']
    if '-v' in sys.argv: print(n,r,chain)
