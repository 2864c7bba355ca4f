import re,sys,os
root='/tmp/final/main'
deps={}
order=[]
for l in open(root+'/crates.txt'):
    l=l.strip()
    if not l or l.startswith('#'): continue
    c,d=l.split(':'); deps[c]=[x for x in d.split() ]; order.append(c)
names=set(order)
level={}
def lv(c):
    if c not in names: return 0
    if c not in level: level[c]=1+max([lv(d) for d in deps[c] if d in names] or [0])
    return level[c]
for c in order: lv(c)
T={}
for l in open('/tmp/final/gate.log'):
    m=re.match(r'rt: (\w+) proved \((\d+) s\)',l)
    if m: T[m.group(1)]=float(m.group(2))
T.setdefault('vectors',60); T.setdefault('slots',60)
edits={c:len([e for e in os.listdir(f'{root}/crates/{c}/must-fail') if e.endswith('.edit')]) if os.path.isdir(f'{root}/crates/{c}/must-fail') else 0 for c in order}
EFF=1.25
alone={c:T.get(c,5)/(1.0 if c in('walkers','analyze') else EFF) for c in order}
def batch(ws):
    # processor sharing on 2 cores, efficiency when both are busy
    ws=list(ws); t=0
    while ws:
        k=len(ws); rate=1.0 if k==1 else (2/EFF)/k if k>=2 else 1
        m=min(ws); dt=m/rate; t+=dt
        ws=[w-m for w in ws if w-m>1e-9]
    return t
def proofs(jobs,key):
    t=0
    for L in sorted(set(level.values())):
        cs=[c for c in order if level[c]==L]
        if key: cs=sorted(cs,key=lambda c:-alone[c])
        for i in range(0,len(cs),jobs): t+=batch([alone[c] for c in cs[i:i+jobs]])
    return t
def edit_time(jobs,skip=()):
    es=[alone[c] for L in sorted(set(level.values())) for c in order if level[c]==L for _ in range(edits[c]) if c not in skip]
    return sum(batch(es[i:i+jobs]) for i in range(0,len(es),jobs)), sum(es)
if __name__=='__main__':
    for jobs in (2,3,4,6):
        print(jobs,'proofs',round(proofs(jobs,False)),'sorted',round(proofs(jobs,True)),'edits',[round(x) for x in edit_time(jobs)],'without walkers',[round(x) for x in edit_time(jobs,('walkers',))])
    for L in sorted(set(level.values())): print(L,[(c,round(alone[c])) for c in order if level[c]==L])
    print('--- modified')
    edits['walkers']=0
    print('no walkers edit', round(edit_time(2)[0]))
    alone['keeping']=12; alone['writing']=11; alone['atoms']=12
    print('+ split keeping writing atoms', round(edit_time(2)[0]))
    edits['analyze']=1
    print('+ analyze 1', round(edit_time(2)[0]))
    alone['captures']=6; alone['marks']=6; alone['resolving']=9
    print('+ captures marks resolving', round(edit_time(2)[0]))
