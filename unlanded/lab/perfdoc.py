import re,sys
root,speed,examples,growth,aligned,tables=sys.argv[1:7]
def table(path): return '\n'.join(l for l in open(path).read().split('\n') if l.startswith('|'))
p=f'{root}/docs/PERFORMANCE.md'
s=open(p).read()
a=s.index('## The analyser')
head=s[:a]
tab=open(tables).read()
dom=tab[:tab.index('| tree |')].strip()
# own share only: what callgrind adds up for calls inside calls is not to be trusted
rows=[]
for l in dom.split('\n'):
    cells=[c.strip() for c in l.strip('|').split('|')]
    if cells[0] in('function',) or cells[0].startswith('---'): rows.append('| '+' | '.join(cells)+' |'); continue
    rows.append('| '+' | '.join([cells[0]]+[c.split(',')[0] for c in cells[1:]])+' |')
dom='\n'.join(rows)
ratio=tab[tab.index('| tree |'):].strip()
ratio='\n'.join(l for l in ratio.split('\n') if l.startswith('|'))
body=f'''## The analyser

`tsilmogar_analyze` beside the Rust's `analyze_root`, in one run of one process. The Rust has its own tree and interned
names before the clock starts, and what it answers is dropped after the clock stops. It is compiled unchanged; the interner,
hash and short lists that it asks for are stand-ins of ours (names compared by address, short lists inline). The library has
packed bytes, and exactly the limits and buffers that the tree needs; its first walk and the zeroing of its tables are in the
call. Each figure is the median of 51 ratios. Nothing else ran on the machine.

    rt staticlib analyze
    cd tests/library && cargo run -j1 --release --bin speed

{table(speed)}

flat: one `LO`, each bind uses the one before it. forward: each uses the next, so that references are kept. deep: blocks of up to
190 nested `LO` in an array. objects: one object with n binds and n fields that use `self` and `$`. functions: n functions of three
parameters, each calls the one before it.

SAID_SPEED

## The examples

The trees of examples/ that are accepted (damaged is refused), measured as the profiles above. They are small, so a timing is of
as many calls as take 100 microseconds, 64 at most. The Rust's list of external names, which a call keeps, is made before the
clock starts.

    cd tests/library && cargo run -j1 --release --bin speed -- --examples --rounds 501

{table(examples)}

With unbound and warnings the Rust makes messages as text too, where the library writes numbers.

## Growth

The time of a byte of the tree as the profile doubles, over that of the same side at 125 locals: a row that stays at 1 is linear,
one that doubles with the size is quadratic. The third row is library / Rust. Each round times all sizes of a profile, each twice,
and takes the second, because the first pays for what the allocator clears up after another size; a figure is the median of 51
rounds' ratios. Four profiles are added that the table above doesn't have. settling: as forward, but the last name uses a local
outside, so that settling takes a round for each name (forward takes three rounds at every size). descending: as objects, but the
fields' names go down instead of up. shuffled: as objects, but the names stand in no order. fields: as shuffled, but with two binds at every
size, so that few locals are live; the sizes are of fields.

    cd tests/library && cargo run -j1 --release --bin speed -- --growth

{table(growth)}

deep is linear in both: its frames have one local each, and at most 190 are open; so is fields up to 1000. The others end up quadratic in
both, because one frame has all the locals. In both, each bind's value is followed by a look at every local of the frame
(`record_spec_init`), and each round of settling looks at every bind. The library has three searches more where the Rust has hash tables:
for the name that is used, for an equal name where one is defined, and for an equal field name where a field's name isn't above all
before it and shares its residue by 1,024 with one of them (`is_static`). The names of these profiles follow one another, so that up to 1,024
fields no two have a residue in common and the last of these never starts; beyond, it starts at most fields of descending, shuffled and fields.

The ratios of large profiles depend on where the linker lays the Rust's `record_spec_init`. Built with
`RUSTFLAGS="-C llvm-args=-align-loops=32"`, which moves the Rust's code and not the library's, the third rows are:

{table(aligned)}

## What dominates

Instructions of the library's calls alone, in per cent of a call, each function's own. What the compiler puts into a function
counts as its own: the steps of names, self, super, $ and constants are in `on_items`, that of a field's value in `on_members`.
Functions that are below 1 % everywhere are left out.

    cd tests/library && cargo build -j1 --release
    valgrind --tool=callgrind --toggle-collect=tsilmogar_analyze --callgrind-out-file=counts \\
        ./target/release/speed --calls flat 100 50
    callgrind_annotate --threshold=100 counts

The other columns are `--calls objects 100 50`, `--calls functions 100 50` and `--calls ../../examples/limiter.bin 50`.

{dom}

Beside the Rust by the same counts (`--rust-calls` instead of `--calls`, `--toggle-collect=plain::analyze::analyze_root`):

{ratio}

SAID_COUNTS
'''
open(p,'w').write(head+body)
