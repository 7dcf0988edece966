# lemmas of proofs/ that are named nowhere but in their own signature and equations
import re,glob
F=glob.glob('crates/*/proofs/**/*.antt',recursive=True)+glob.glob('crates/*/specs/*.antt')
T={f:re.sub(r'--.*','',open(f).read()) for f in F}
n=0
for f in sorted(F):
    if '/specs/' in f or re.search(r'(Answers|Invariants|Lib)\.antt$',f): continue
    for m in re.finditer(r'^( *)(?:abbrev |unfoldable )?(pub )?([a-zA-Z_][\w-]*) :(?!:)',T[f],re.M):
        ind,x=m[1],m[3]; w=r'(?<![\w.-])'+re.escape(x)+r'(?![\w-])'
        t=re.sub(r'^ *(?:abbrev |unfoldable )?(?:pub )?'+re.escape(x)+r' :',' ',T[f],flags=re.M)
        t=re.sub(r'^'+ind+re.escape(x)+r'( [^=\n]*)?(?= =|$)',' ',t,flags=re.M)
        if not re.search(w,t) and not any(re.search(w,u) for g,u in T.items() if g!=f):
            n+=1; print(f[7:],x)
print(n,'lemmas')
