# parts of clauses that stand in the contracts of three or more functions, with the names of the arguments blanked
import re,glob,collections
c=collections.defaultdict(set)
for f in sorted(glob.glob('crates/*/src/**/*.rt',recursive=True)):
    name=''
    for l in open(f):
        m=re.match(r'\s*(?:pub(?:\(\w+\))? )?(?:extern "C" )?fn (\w+)',l)
        if m: name=m[1]
        m=re.match(r'\s*(?:requires|ensures)(?: \w+)? \{ (.*) \};?$',l)
        for q in re.split(r' × ',m[1]) if m else []:
            c[re.sub(r'\b[a-z_]+(?=\.(old|new|now|entry)\b)','_',q.strip('() '))].add(f.split('/')[1]+':'+name)
g=sorted(((len(v),k,v) for k,v in c.items() if len(v)>2),key=lambda t:(-t[0],t[1]))
for n,k,v in g: print(n,k,'|',*sorted(v))
print(len(g),'facts')
