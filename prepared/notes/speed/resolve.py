import re,sys,subprocess
files=[l[3:] for l in subprocess.run(['git','status','--short'],capture_output=True,text=True).stdout.splitlines() if l[:2] in('UU','AA')]
for f in files:
    s=open(f).read()
    def pick(m):
        ours,theirs=m.group(1),m.group(2)
        if '| image words |' in ours or 'large, every value arrives' in ours: return ours
        t=theirs
        if 'pairWords' in ours and 'pairWords' not in t: t=t.replace('places/specs/Answers.antt), `places::lookup`','places/specs/Answers.antt; `pairWords`, places/specs/Sides.antt), `places::lookup`')
        t=t.replace('(1.1 of 1.8 µs with two markers)','(1.3 of 2.2 µs with two markers)')
        return t
    s2=re.sub(r'<<<<<<< [^\n]*\n(.*?)=======\n(.*?)>>>>>>> [^\n]*\n',pick,s,flags=re.S)
    open(f,'w').write(s2); print(f,len(re.findall('<<<<<<<',s)),'hunks')
    subprocess.run(['git','add',f])
