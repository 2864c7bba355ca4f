import sys,os
args='''    tree: &[u8],
    out: &mut [u8],
    diagnostics: &mut [u8],
    locals: &mut [u32],
    frames: &mut [u32],
    captures: &mut [u32],
    references: &mut [u32],
    limits: Limits,
    st: AnalysisStack,
    at: usize,
    nest: u32,
    here: Place,
'''
call=lambda st: f'f(tree, out, diagnostics, locals, frames, captures, references, limits, {st}, at, nest, here)'
def seq(k):
    b=''
    st='st'
    for i in range(k-1):
        b+=f'    let w{i} = {call(st)};\n    let Walked::To(a{i}, _) = w{i} else {{\n        return w{i};\n    }};\n'
        st=f'a{i}'
    b+='    '+call(st)+'\n'
    return b
def arms(k):
    b=''
    for i in range(k-1):
        b+=f'    if at == {i} {{\n        return {call("st")};\n    }}\n'
    b+='    '+call('st')+'\n'
    return b
kind,k=sys.argv[1],int(sys.argv[2])
body={'seq':seq,'arms':arms}[kind](k) if k else ''
src='use state::AnalysisStack;\nuse state::Limits;\nuse state::Place;\nuse state::Walked;\n\nfn f(\n'+args+') -> Walked\n{\n    Walked::Refused(nest, at)\n}\n'
if k: src+='\npub fn g(\n'+args+') -> Walked\n{\n'+body+'}\n'
d=f'/tmp/t1/main/crates/probe/src'
os.makedirs(d,exist_ok=True)
open(d+'/lib.rt','w').write(src)
