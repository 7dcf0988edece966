# pairs and triples of parameters that stand in five or more functions
import re,glob,collections,itertools
c=collections.Counter()
for f in sorted(glob.glob('crates/*/src/**/*.rt',recursive=True)):
    for m in re.finditer(r'fn \w+(?:<[^()]*?>)?\(([^)]*)\)',open(f).read()):
        p=re.findall(r'(\w+):',m[1])
        for k in (2,3): c.update(itertools.combinations(p,k))
g=[(n,t) for t,n in c.most_common() if n>4]
for n,t in g: print(n,*t)
print(len(g),'pairs and triples')
