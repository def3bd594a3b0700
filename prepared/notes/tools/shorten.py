import os,re,sys
W=160
def lets(ks):
    out=[];prev,pn=0,'c'
    for k in ks:
        while k-prev>15:
            prev2=prev+15; out.append('    let c%d = %s%s in'%(prev2,pn,' .before'*15)); prev,pn=prev2,'c%d'%prev2
        if k==prev: continue
        out.append('    let c%d = %s%s in'%(k,pn,' .before'*(k-prev))); prev,pn=k,'c%d'%k
    return out
def shorten_item(item):
    # item: list of lines; first line is the clause head
    m=re.match(r'^((?:\S+ )*?c(?: κs)? =)(.*)$',item[0])
    if not m: return item,False
    if not any(len(l)>W for l in item): return item,False
    body='\n'.join([m.group(2)]+item[1:])
    if re.search(r'let c\d+ =',body): return item,False
    # whole-place aliases keep their chains
    ks=set()
    def f(mm):
        k=mm.group(1).count('.before'); ks.add(k); return 'c%d'%k
    nb=re.sub(r'(?<![\w.\-·])c((?: \.before)+)',f,body)
    if not ks: return item,False
    L=nb.split('\n')
    first=L[0].strip()
    out=[m.group(1)]+lets(sorted(ks))
    if first: out.append('    '+first)
    out+=L[1:]
    return out,True
def depth_splits(s):
    """positions of spaces with their depth"""
    d=0;res=[]
    for i,ch in enumerate(s):
        if ch in '([{': d+=1
        elif ch in ')]}': d-=1
        elif ch==' ' and 0<i<len(s)-1: res.append((i,d))
    return res
def wrap(line,ind,cont):
    """break a line; returns lines"""
    if len(line)<=W: return [line]
    s=line
    sp=[(i,d) for i,d in depth_splits(s) if i>ind+2]
    best=None
    for d in sorted(set(d for _,d in sp)):
        c=[i for i,dd in sp if dd==d and i<=W]
        def score(i):
            nxt=s[i+1:]
            if nxt.startswith('→ ') : return 3
            if nxt.startswith('∙ '): return 3
            if nxt.startswith('≡ '): return 2
            if nxt[0] in '([' : return 1
            prevc=s[i-1]
            if re.match(r'[.=,∷∙→≡+&|×<≤∈⊎)\]]|\+\+|in\b|as\b',nxt): return -1
            if re.search(r'(∷|∙|→|≡|\+\+|×|<|≤|=|\blet|λ|,|λ \(\w+ : [^)]*\)\.|:)$',s[:i]) : return -1
            return 0
        c=[(i,score(i)) for i in c]
        c=[x for x in c if x[1]>=0]
        if not c: continue
        hi=[x for x in c if x[1]==3]
        if hi and hi[-1][0]>W*0.35: best=hi[-1][0]
        else:
            c1=[x for x in c if x[1]>=1]
            far=c1 or c
            best=far[-1][0]
        if best>ind+20: break
    if best is None: return [line]
    a=s[:best]; b=' '*cont+s[best+1:]
    return [a]+wrap(b,cont,cont)
def do(path):
    t=open(path).read(); L=t.split('\n')
    items=[];cur=[]
    for l in L:
        if l and not l[0].isspace() and not l.startswith(')'):
            if cur: items.append(cur)
            cur=[l]
        else: cur.append(l)
    items.append(cur)
    out=[]; ch=False
    for it in items:
        trail=[]
        while it and it[-1]=='' : trail.append(it.pop())
        if not it: out+=trail; continue
        if path.endswith('Proof.antt'):
            it,c=shorten_item(it); ch|=c
        new=[]
        for l in it:
            if len(l)<=W: new.append(l); continue
            ch=True
            m=re.match(r'^(\s*(?:pub )?use )([^{]*)\.\{(.*)\}$',l)
            if m:
                names=[x.strip() for x in m.group(3).split(',')]
                cur='';ls=[]
                for n in names:
                    cand=(cur+', '+n) if cur else n
                    if len(m.group(1)+m.group(2)+'.{'+cand+'}')>W: ls.append(cur); cur=n
                    else: cur=cand
                ls.append(cur)
                new+=[m.group(1)+m.group(2)+'.{'+x+'}' for x in ls]; continue
            ind=len(l)-len(l.lstrip())
            if l.lstrip().startswith('unfolding '):
                ws=l.split(' '); 
                cur='';acc=[]
                for wd in l.strip().split(' '):
                    base=' '*ind if not acc else ' '*(ind+4)
                    cand=(cur+' '+wd) if cur else base+wd
                    if len(cand)>W: acc.append(cur); cur=' '*(ind+4)+wd
                    else: cur=cand
                acc.append(cur); new+=acc; continue
            m=re.match(r'^(\s*)(.*?[^≡<≤]) = (.*)$',l)
            if re.match(r'^\s*(pub |abbrev |unfoldable )*\S+ : ',l) and not l.strip().startswith('let'):
                new+=wrap(l,ind,ind+4)
            elif m and not l.strip().startswith(('let','∙','(','→')) and len(m.group(1))<=4 and new[-1:]!=[] and not re.match(r'^\s{4,}',l):
                # definition clause on one line
                new.append(m.group(1)+m.group(2)+' =')
                new+=wrap(' '*(ind+4)+m.group(3),ind+4,ind+4)
            else: new+=wrap(l,ind,ind)
        out+=new+trail
    s='\n'.join(out)
    if s!=t:
        open(path,'w').write(s); print('changed',path.split('crates/')[1])
for c in sys.argv[1:]:
    for r,d,f in os.walk(c):
        for x in f:
            if x.endswith('.antt'): do(os.path.join(r,x))
