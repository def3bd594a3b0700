import sys,subprocess,resource,os,random
reps={0:6000,1:1200,2:400,3:100,4:100}
names=sys.argv[1:]; ts=[int(c) for c in os.environ.get('T','01234')]; R=int(os.environ.get('R','100'))
tabs={t:open(f'$SCRATCH/sp/t{t}','rb').read() for t in ts}
def run(n,t,k):
    b=resource.getrusage(resource.RUSAGE_CHILDREN).ru_utime
    subprocess.run([f'$SCRATCH/sp/speed-{n}'],input=k.to_bytes(3,'little')+bytes([int(os.environ.get('M','0'))])+tabs[t],stdout=subprocess.DEVNULL)
    return resource.getrusage(resource.RUSAGE_CHILDREN).ru_utime-b
vals={}
for r in range(R):
    for t in ts:
        ns=names[:]; random.shuffle(ns)
        for n in ns: vals.setdefault((n,t),[]).append(run(n,t,reps[t])/reps[t])
for n in names:
    print(n,' '.join('t%d min %.0f q1 %.0f med %.0f;'%(t,*[sorted(vals[n,t])[int(len(vals[n,t])*q)]*1e9 for q in(0,.25,.5)]) for t in ts))
