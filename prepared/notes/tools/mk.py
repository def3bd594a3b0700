"""mk(crate, path, comment, uses, bodies, inv): writes a proof file from bodies with @field references, short paths through lets."""
import re, os, sys
sys.path.insert(0,'$SCRATCH/lang-tools')
def parse(file):
    L=open(file).read().split('\n')
    rec,cur,needs={},None,{}
    order=[]
    for i,l in enumerate(L):
        m=re.match(r'\s+pub record (\S+) : Type 0 where',l)
        if m: cur=m.group(1); rec[cur]=[]; continue
        m=re.match(r'\s+pub (\S+) : (.*)',l)
        if m and cur: rec[cur].append((m.group(1),m.group(2)))
        m=re.match(r'\s+(Need-\S+) =',l)
        if m:
            n=re.search(r'\(c : (\S+)\)', l+' '.join(L[i+1:i+4]))
            needs[m.group(1)[5:]]=n.group(1) if n else None
            order.append(m.group(1)[5:])
    chains={}
    for w,r in needs.items():
        ch=[];
        while r and r in rec:
            fs=dict(rec[r]); ch.append([f for f in fs if f!='before'])
            if 'before' not in fs: break
            r=fs['before'].split()[0]
        chains[w]=ch
    return order,chains
def expand(body,chain):
    used=set()
    def f(m):
        x=m.group(1)
        for k,fs in enumerate(chain):
            if x in fs:
                used.add(k)
                return ('c' if k==0 else 'c%d'%k)+' .'+x
        raise Exception('no '+x+' in '+str(chain))
    b=re.sub(r'@([a-zA-Z0-9-]+)',f,body)
    lets='';prev,pn=0,'c'
    for k in sorted(used):
        if k==0: continue
        lets+='    let c%d = %s%s in\n'%(k,pn,' .before'*(k-prev)); prev,pn=k,'c%d'%k
    if not lets: return b
    return '\n'+lets+'\n'.join('    '+l.strip() if not l.startswith('      ') else l for l in b.strip('\n').split('\n'))
def mk(crate,path,comment,uses,bodies,inv=None,unf={}):
    fn=path.split('/')[-1]
    order,chains=parse('$SCRATCH/lang-gen-%s/Rattle·%s·proofs/proofs/%s/Lts.antt'%(crate,crate,path))
    mod='Rattle·%s·proofs.proofs.'%crate+path.replace('/','.')
    out=comment.rstrip()+'\n'+uses.strip()+f'\nuse borrow.Author.Needs.{{needs}}\nuse {mod}.Statement.{{statement}}\nuse {mod}.Tie as tie\n\n'
    arg=''
    if inv:
        out+=inv.strip()+'\n\n'; arg=' Inv-loop μ-loop'
    for n in order:
        out+=f'{n} : tie.Need-{n}{arg}\n'
        if n in unf: out+='unfolding '+unf[n]+'\n'
        if n in bodies:
            b=expand(bodies[n],chains[n])
            k=' κs' if re.search(r'requires(-\d+)?$',n) else ''
            out+=f'{n} c{k} ='+(' ' if not b.startswith('\n') else '')+b+'\n\n'
        elif re.search(r'requires(-\d+)?$',n): out+=f'{n} c κs = search needs\n\n'
        else: out+=f'{n} c = search needs\n\n'
    names=(['Inv-loop','μ-loop'] if inv else [])+order
    spec=fn.replace('_','-')+'-spec'
    out+=f'pub {spec} : {{M : Type 1}} → statement M\n{spec} =\n    tie.close\n    (tie.spec\n    '+'\n    '.join(names)+')\n'
    d='$WORK/clones/language/crates/%s/proofs/'%crate+path
    os.makedirs(d,exist_ok=True)
    open(d+'/Proof.antt','w').write(out)
    for n in bodies:
        if n not in order: print('NOT NEEDED',n)
