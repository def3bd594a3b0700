import glob, re, os
G='$SCRATCH/lang-gen1/Rattle·language·proofs/proofs/'
C='$WORK/clones/language/crates/language/proofs/'
def parse(file):
    L=open(file).read().split('\n')
    rec,cur,needs={},None,{}
    order=[]
    for i,l in enumerate(L):
        m=re.match(r'\s+pub record (\S+) : Type 0 where',l)
        if m: cur=m.group(1); rec[cur]=[]; continue
        m=re.match(r'\s+pub (\S+) : (.*)',l)
        if m and cur: rec[cur].append((m.group(1),m.group(2)))
        m=re.match(r'\s+(Need-\S+) =',l)
        if m:
            n=re.search(r'\(c : (\S+)\)', l+' '.join(L[i+1:i+4]))
            needs[m.group(1)[5:]]=n.group(1) if n else None
            order.append(m.group(1)[5:])
    chains={}
    for w,r in needs.items():
        ch=[];
        while r and r in rec:
            fs=dict(rec[r]); ch.append([f for f in fs if f!='before'])
            if 'before' not in fs: break
            r=fs['before'].split()[0]
        chains[w]=ch
    return order,chains
def expand(body,chain,base='c'):
    def f(m):
        x=m.group(1)
        for k,fs in enumerate(chain):
            if x in fs: return base+' .before'*k+' .'+x
        raise Exception('no '+x+' in '+str(chain))
    return re.sub(r'@([a-zA-Z0-9-]+)',f,body)
def build(path,comment,uses,bodies,inv=None,unf={}):
    fn=path.split('/')[-1]
    order,chains=parse(G+path+'/Lts.antt')
    mod='Rattle·language·proofs.proofs.'+path.replace('/','.')
    out=comment.rstrip()+'\nuse borrow.Author.Needs.{needs}\n'+uses.strip()+f'\nuse {mod}.Statement.{{statement}}\nuse {mod}.Tie as tie\n\n'
    arg=''
    if inv:
        out+=inv.strip()+'\n\n'; arg=' Inv-loop μ-loop'
    for n in order:
        out+=f'{n} : tie.Need-{n}{arg}\n'
        if n in unf: out+='unfolding '+unf[n]+'\n'
        if n in bodies:
            b=expand(bodies[n],chains[n])
            k=' κs' if n.endswith('requires') or re.search(r'requires-\d+$',n) else ''
            out+=f'{n} c{k} ='+(' ' if not b.startswith('\n') else '')+b+'\n\n'
        elif re.search(r'requires(-\d+)?$',n): out+=f'{n} c κs = search needs\n\n'
        else: out+=f'{n} c = search needs\n\n'
    names=(['Inv-loop','μ-loop'] if inv else [])+order
    spec=fn.replace('_','-')+'-spec'
    out+=f'pub {spec} : {{M : Type 1}} → statement M\n{spec} =\n    tie.close\n    (tie.spec\n    '+'\n    '.join(names)+')\n'
    os.makedirs(C+path,exist_ok=True)
    open(C+path+'/Proof.antt','w').write(out)
