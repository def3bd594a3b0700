# plus.py FILE...: resolves diff3 conflicts where theirs only adds lines to base: ours and the added lines; tells the others
import sys,re,difflib
rx=re.compile(r'<<<<<<< [^\n]*\n(.*?)\|\|\|\|\|\|\| [^\n]*\n(.*?)=======\n(.*?)>>>>>>> [^\n]*\n',re.S)
for f in sys.argv[1:]:
    s=open(f).read()
    def p(m):
        o,b,t=[x.splitlines(True) for x in m.groups()]
        ops=difflib.SequenceMatcher(None,b,t,autojunk=False).get_opcodes()
        if any(k in('replace','delete') for k,*_ in ops):
            print('HAND',f,[k for k,*_ in ops]); return m.group(0)
        out=list(o)
        add=[]
        for k,i1,i2,j1,j2 in ops:
            if k=='insert':
                prev=b[i1-1] if i1>0 else None
                if prev is not None and prev in out:
                    q=len(out)-1-out[::-1].index(prev)+1
                elif i1==0: q=0
                else: q=len(out)
                out[q:q]=t[j1:j2]
        return ''.join(out)
    s2=rx.sub(p,s); open(f,'w').write(s2)
