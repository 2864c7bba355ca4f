#include <stddef.h>
#include <stdint.h>
struct s { void *p; size_t n; };
void tsilmogar_inner(struct s*,struct s*,struct s*,struct s*,struct s*,struct s*,struct s*,uint32_t,uint32_t,uint32_t,uint32_t,uint64_t*);
void tsilmogar_analyze(void*a,size_t an,void*b,size_t bn,void*c,size_t cn,void*d,size_t dn,void*e,size_t en,void*f,size_t fn,void*g,size_t gn,uint32_t l,uint32_t m,uint32_t n,uint32_t o,uint64_t*r){
 struct s A={a,an},B={b,bn},C={c,cn},D={d,dn},E={e,en},F={f,fn},G={g,gn};
 tsilmogar_inner(&A,&B,&C,&D,&E,&F,&G,l,m,n,o,r);
}
