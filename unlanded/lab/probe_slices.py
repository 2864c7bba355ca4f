import sys,os
# variant: slices n, struct flags, k arms
ns=int(sys.argv[1]); structs=sys.argv[2]; k=int(sys.argv[3]); ret=sys.argv[4]
S=[('tree','&[u8]'),('out','&mut [u8]'),('diagnostics','&mut [u8]'),('locals','&mut [u32]'),('frames','&mut [u32]'),('captures','&mut [u32]'),('references','&mut [u32]')][:ns]
V=[]
if 'l' in structs: V.append(('limits','Limits'))
if 's' in structs: V.append(('st','AnalysisStack'))
V+= [('at','usize'),('nest','u32')]
if 'p' in structs: V.append(('here','Place'))
A=S+V
args=''.join(f'    {n}: {t},\n' for n,t in A)
call='f('+', '.join(n for n,_ in A)+')'
R={'w':('Walked','Walked::Refused(nest, at)'),'u':('u32','nest'),'s':('AnalysisStack','st')}[ret]
b=''.join(f'    if at == {i} {{\n        return {call};\n    }}\n' for i in range(k-1))+'    '+call+'\n'
src='use state::AnalysisStack;\nuse state::Limits;\nuse state::Place;\nuse state::Walked;\n\nfn f(\n'+args+f') -> {R[0]}\n{{\n    {R[1]}\n}}\n'
if k: src+='\npub fn g(\n'+args+f') -> {R[0]}\n{{\n'+b+'}\n'
d=f'/tmp/t1/main/crates/probe/src'
os.makedirs(d,exist_ok=True)
open(d+'/lib.rt','w').write(src)
