import os
for c in ('language','sentences'):
    for r,d,f in os.walk('$WORK/clones/language/crates/'+c):
        for x in f:
            p=os.path.join(r,x)
            n=[(i+1,len(l)) for i,l in enumerate(open(p).read().split('\n')) if len(l)>(160 if x.endswith('.antt') else 120)]
            if n: print(p.replace('$WORK/clones/language/crates/',''),len(n),n[:6])
