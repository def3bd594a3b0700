import sys,subprocess,resource
def run(n,t,k,m):
    tab=open(f'$SCRATCH/sp/t{t}','rb').read()
    inp=k.to_bytes(3,'little')+bytes([m])+tab
    b=resource.getrusage(resource.RUSAGE_CHILDREN).ru_utime
    subprocess.run([f'$SCRATCH/sp/speed-{n}'],input=inp,stdout=subprocess.DEVNULL)
    return resource.getrusage(resource.RUSAGE_CHILDREN).ru_utime-b
t=int(sys.argv[1]); k=int(sys.argv[2])
for n in sys.argv[3:]:
    print(n,[round(min(run(n,t,k,m)/k*1e9 for _ in range(9)),1) for m in (0,1,2)],'build check size')
