#!/usr/bin/env python3
# ann NAME TABLE LO HI: disassembly with counts per build
import subprocess,re,collections,sys
n=sys.argv[1];t=int(sys.argv[2]);lo=int(sys.argv[3],16);hi=int(sys.argv[4],16)
tab=open(f'$SCRATCH/sp/t{t}','rb').read()
def run(k):
    inp=k.to_bytes(3,'little')+bytes([0])+tab
    f=f'$SCRATCH/sp/cgj.{k}'
    subprocess.run(['valgrind','--tool=callgrind','--dump-instr=yes',f'--callgrind-out-file={f}',f'$SCRATCH/sp/speed-{n}'],input=inp,stdout=subprocess.DEVNULL,stderr=subprocess.DEVNULL)
    d=collections.Counter(); cur=0; skip=False
    for l in open(f):
        l=l.rstrip()
        if l.startswith('calls='): skip=True
        elif re.match(r'^(0x|\+|-|\*)',l):
            p=l.split()
            if p[0].startswith('0x'): cur=int(p[0],16)
            elif p[0].startswith('+'): cur+=int(p[0][1:],0)
            elif p[0].startswith('-'): cur-=int(p[0][1:],0)
            if skip: skip=False; continue
            d[cur]+=int(p[-1])
    return d
a,b=run(1),run(11)
d={k&0xffffff:(b[k]-a.get(k,0))/10 for k in b}
for l in subprocess.run(['objdump','-d','--no-show-raw-insn',f'$SCRATCH/sp/speed-{n}'],capture_output=True,text=True).stdout.splitlines():
    m=re.match(r'\s*([0-9a-f]+):\s*(.*)',l)
    if m:
        ad=int(m.group(1),16)
        if lo<=ad<=hi:
            print('%6d %x %s'%(d.get(ad,0),ad,m.group(2)))
