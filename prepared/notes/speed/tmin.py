#!/usr/bin/env python3
# tmin NAMES... : min time per build over many short interleaved runs
import sys,subprocess,resource,os
reps={0:30000,1:6000,2:2500,3:400,4:400}
names=sys.argv[1:]; ts=[int(c) for c in os.environ.get('T','01234')]; R=int(os.environ.get('R','25'))
def run(n,t,k):
    tab=open(f'$SCRATCH/sp/t{t}','rb').read()
    b=resource.getrusage(resource.RUSAGE_CHILDREN).ru_utime
    subprocess.run([f'$SCRATCH/sp/speed-{n}'],input=k.to_bytes(3,'little')+bytes([0])+tab,stdout=subprocess.DEVNULL)
    return resource.getrusage(resource.RUSAGE_CHILDREN).ru_utime-b
best={}
for r in range(R):
    for t in ts:
        for n in names:
            k=reps[t]
            v=(run(n,t,k)-0)/k
            best[n,t]=min(best.get((n,t),9),v)
for n in names: print(n,' '.join('t%d %.0f'%(t,best[n,t]*1e9) for t in ts))
