import re
root='/tmp/base/main'
deps={};order=[]
for l in open(root+'/crates.txt'):
    l=l.strip()
    if not l: continue
    c,d=l.split(':'); deps[c]=d.split(); order.append(c)
names=set(order); level={}
def lv(c):
    if c not in level: level[c]=1+max([lv(d) for d in deps[c] if d in names] or [-1])
    return level[c]
for c in order: lv(c)
T={}
for l in open('/tmp/gate/log'):
    m=re.match(r'rt: (\w+) proved \((\d+) s\)',l)
    if m: T[m.group(1)]=max(1,float(m.group(2)))
def sim(jobs,srt,show=False):
    t=0
    for L in sorted(set(level.values())):
        cs=[c for c in order if level[c]==L]
        if srt: cs.sort(key=lambda c:-T[c])
        for i in range(0,len(cs),jobs):
            b=cs[i:i+jobs]
            w=max(max(T[c] for c in b), sum(T[c] for c in b)/2)
            t+=w
            if show: print(L,w,[(c,T[c]) for c in b])
    return t
for j in (2,3,4): print(j,sim(j,False),sim(j,True))
sim(2,False,True)
