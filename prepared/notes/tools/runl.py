import subprocess,struct,re,collections,sys
D='$WORK/main/prepared/notes/speed/'
def words(f): b=open(D+f,'rb').read(); return list(struct.unpack('<%dH'%(len(b)//2),b))
def inp(t,names,mode=0,times=1,size=65535,text=b''):
    return times.to_bytes(2,'little')+b'\0'+bytes([mode])+len(t).to_bytes(2,'little')+len(names).to_bytes(2,'little')+size.to_bytes(2,'little')+struct.pack('<%dH'%len(t),*t)+names+text
def run(*a,**k): return subprocess.run(['$SCRATCH/lspo/speed'],input=inp(*a,**k),capture_output=True).stdout
def names(t,long=False):
    n=[]
    for i in range(t[3]): n.append('T%d'%i)
    for i in range(t[2]): n.append('K%d'%i)
    for i in range(t[0]): n.append('p%d'%i)
    for i in range(t[1]): n.append('b%d'%i)
    if long: n=[x+'abcdefghijklmnop'[:16-len(x)] for x in n]
    return ''.join(x+'\n' for x in n).encode()
def instr(t,nm,mode,text=b''):
    r=[]
    for k in (1,11):
        f='$SCRATCH/lspo/cg%d'%k
        subprocess.run(['valgrind','--tool=callgrind','--callgrind-out-file='+f,'$SCRATCH/lspo/speed'],input=inp(t,nm,mode,k,text=text),stdout=subprocess.DEVNULL,stderr=subprocess.DEVNULL)
        o=subprocess.run(['callgrind_annotate','--threshold=100',f],capture_output=True,text=True).stdout
        d=collections.Counter()
        for l in o.splitlines():
            g=re.match(r'\s*([\d,]+)\s+\(\s*[\d.]+%\)\s+\S*:(\S+)',l)
            if g: d[g.group(2)]+=int(g.group(1).replace(',',''))
        r.append(d)
    a,b=r
    d={k:(b[k]-a.get(k,0))/10 for k in b}
    return int(sum(d.values())),sorted(d.items(),key=lambda x:-x[1])[:8]
if __name__=='__main__':
    E=words('t0')
    o=run(E,b'Ann\nBob\nK\nL\np\nr\nx\n'); print(o.decode())
    print(run(E,b'Ann\nBob\nK\nL\np\nr\nx\n',mode=1,text=o[7:]))
    print(run(E,b'Ann\nBob\nK\nL\np\nr\nx\n',mode=1,text=o[7:].replace(b'<',b'(')), run(E,b'Ann\nBob\nK\nL\np\nr\ntau\n'), run(E,b'Ann\nBob\nK\nL\np\nr\nr\n'), run(E,b'Ann\nBob\nK\nL\np\nr\n'), run(E,b'Ann\nBob\nK\nL\np\nr\nx\n',size=len(o)-8), run(E[:-1],b'x'))
    for f in ('t1','t2','t3','t4'):
        t=words(f); o=run(t,names(t)); 
        if f=='t1': print(o.decode())
        print(f,t[:7],o[:7],run(t,names(t),mode=1,text=o[7:]))
        for lg in (False,True):
            nm=names(t,lg); tx=run(t,nm)[7:]
            w=instr(t,nm,0); m=instr(t,nm,1,tx); r=instr(t,nm,2); c=instr(t,nm,3)
            print(f,'long' if lg else 'short','write',w[0],'matches',m[0],'are_right',r[0],'check',c[0])
            if lg: print('   ',w[1]); print('   ',r[1])
