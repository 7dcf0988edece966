# functions whose bodies are the same once names, types, constants and numbers are blanked
import re,glob,collections
d=collections.defaultdict(list)
for f in sorted(glob.glob('crates/*/src/**/*.rt',recursive=True)):
    name=body=None
    for l in open(f).read().split('\n'):
        m=re.match(r'(\s*)(?:pub(?:\(\w+\))? )?(?:extern "C" )?fn (\w+)',l)
        if m: ind,name,body=m[1],m[2],None
        if name is None: continue
        if body is None:
            if l==ind+'{' or (l.endswith('{') and not re.match(r'\s*(requires|ensures)',l)): body=[]
        elif l==ind+'}':
            t=re.sub(r'\b[A-Z]\w*\b','T',' '.join(' '.join(body).split()))
            t=re.sub(r'\b(0x[0-9a-f]+|\d+)\b','T',t)
            t=re.sub(r'\b[a-z_]\w*\b',lambda m:m[0] if m[0] in('let','match','if','else','return','for','in','while','mut') else 'v',t)
            if len(t)>3: d[t].append(f[7:]+':'+name)
            name=None
        else: body.append(l)
g=[v for v in d.values() if len(v)>1]
for v in sorted(g,key=len,reverse=True): print(len(v),*v)
print(len(g),'groups',sum(map(len,g)),'functions')
