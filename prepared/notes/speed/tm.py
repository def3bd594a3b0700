import subprocess,sys,time,resource
def t(n,tb,k):
    tab=open(f'$SCRATCH/sp/t{tb}','rb').read()
    best=1e9
    for _ in range(5):
        a=resource.getrusage(resource.RUSAGE_CHILDREN).ru_utime
        subprocess.run([f'$SCRATCH/sp/speed-{n}'],input=k.to_bytes(3,'little')+bytes([0])+tab,stdout=subprocess.DEVNULL)
        b=resource.getrusage(resource.RUSAGE_CHILDREN).ru_utime
        best=min(best,b-a)
    return best/k*1e6
for tb,k in ((0,300000),(1,60000)):
    print(tb,*['%s %.2f us'%(n,t(n,tb,k)) for n in ('p17','p4','m0','m1')])
