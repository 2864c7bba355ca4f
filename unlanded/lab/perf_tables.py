import subprocess,re,sys,os
B=sys.argv[1]  # folder of tests/library
S=f'{B}/target/release/speed'
def counts(args,toggle):
    out='/tmp/cg.out'
    if os.path.exists(out): os.remove(out)
    p=subprocess.run(['valgrind','--tool=callgrind',f'--toggle-collect={toggle}',f'--callgrind-out-file={out}',S]+args,capture_output=True,text=True,cwd=B)
    m=re.search(r'Collected : (\d+)',p.stderr)
    if not m: print(p.stderr[-500:]); raise SystemExit
    return int(m.group(1))
def annotate(inclusive):
    w=['callgrind_annotate','--threshold=100']+(['--inclusive=yes'] if inclusive else [])+['/tmp/cg.out']
    t=subprocess.run(w,capture_output=True,text=True).stdout
    d={}
    total=None
    for l in t.split('\n'):
        m=re.match(r'\s*([\d,]+) \(\s*([\d.]+)%\)\s+(.*)',l)
        if not m: continue
        n=int(m.group(1).replace(',','')); name=m.group(3)
        if 'PROGRAM TOTALS' in name: total=n; continue
        name=re.sub(r'^.*?:(?=[\w_]+(::|$|\'| \[))','',name)
        name=name.split(' [')[0]
        name=re.sub(r'^\?\?\?:','',name)
        if '__memset' in name: name='memset'
        rec="'2" in name
        name=name.replace("'2",'')
        if inclusive:
            d[name]=max(d.get(name,0),n)
        else: d[name]=d.get(name,0)+n
    return d,total
trees=[('flat 100',['flat','100']),('objects 100',['objects','100']),('functions 100',['functions','100']),('limiter.bin',['../../examples/limiter.bin'])]
cols=[]
for label,a in trees:
    counts(['--calls']+a+['50'],'tsilmogar_analyze')
    s,t=annotate(False); i,_=annotate(True)
    cols.append({k:(100*s.get(k,0)/t,min(100.0,100*i.get(k,0)/t)) for k in set(s)|set(i)})
names=set().union(*[set(c) for c in cols])
rows=[(max(c.get(n,(0,0))[0] for c in cols),n) for n in names]
print('| function | '+' | '.join(l for l,_ in trees)+' |'); print('|---'*5+'|')
for m,n in sorted(rows,reverse=True):
    if m<1: continue
    print(f'| `{n}` | '+' | '.join((f'{c[n][0]:.1f}, {c[n][1]:.1f}' if n in c and c[n][1]>0.05 else '') for c in cols)+' |')
print()
print('| tree | instructions, library / Rust |'); print('|---|---|')
ex=['frame-sizes','gain-ladder','limiter','unbound','warnings']
lst=[(e,[f'../../examples/{e}.bin'],'50') for e in ex]+[(f'{p} {n}',[p,str(n)],'50' if n<1000 else '2') for p in ['flat','forward','deep','objects','functions','settling','descending','shuffled','fields'] for n in (10,100,4000)]
for label,a,k in lst:
    if label.startswith('settling 4000'): k='1'
    l=counts(['--calls']+a+[k],'tsilmogar_analyze'); r=counts(['--rust-calls']+a+[k],'plain::analyze::analyze_root')
    print(f'| {label} | {l/r:.2f} |',flush=True)
