# resolves conflicts of documents in a rebase: sections and rows of both sides; a paragraph's line by the pairs (old, new) given to theirs
import re,subprocess
ROW='places/specs/Sets.antt), `places::count`'
files=[l[3:] for l in subprocess.run(['git','status','--short'],capture_output=True,text=True).stdout.splitlines() if l[:2] in('UU','AA')]
for f in files:
    s=open(f).read()
    def pick(m):
        o,t=m.group(1),m.group(2)
        if '| image words |' in o: return o
        if o.startswith('#') and t.startswith('#'): return o.rstrip('\n')+'\n\n'+t
        if o.startswith('places/specs/Answers') or '`places::reach`, `places::layout`' in t:
            t=t.replace(ROW,'places/specs/Sets.antt), `places::row` (`startIn`, `spanIn`, places/specs/Starts.antt), `places::count`')
            t=t.replace('`places::reach`, `places::layout`','`places::reach`, `places::row`, `places::layout`')
            if '- **Where a row starts' in o and '- **Where a row starts' not in t: t+=o[o.index('- **Where a row starts'):]
            return t
        print('UNRESOLVED',f,o[:300],'\n--\n',t[:300]); return m.group(0)
    s2=re.sub(r'<<<<<<< [^\n]*\n(.*?)=======\n(.*?)>>>>>>> [^\n]*\n',pick,s,flags=re.S)
    open(f,'w').write(s2)
    if '<<<<<<<' not in s2: subprocess.run(['git','add',f])
