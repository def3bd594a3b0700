import sys,subprocess,re,shutil
crate,name=sys.argv[1:3]
b='$WORK/clones/language/crates/%s/'%crate
t=open(b+'must-fail/%s.edit'%name).read()
f=re.search(r'^file: (.*)$',t,re.M).group(1); o=re.search(r'^old: (.*)$',t,re.M).group(1); n=re.search(r'^new: (.*)$',t,re.M).group(1)
s=open(b+f).read(); assert s.count(o)==1,(s.count(o))
try:
    open(b+f,'w').write(s.replace(o,n))
    r=subprocess.run(['$WORK/bin/rtq','dev',crate],cwd='$WORK/clones/language',capture_output=True,text=True)
finally: open(b+f,'w').write(s)
L=(r.stdout+r.stderr).split('\n')
open('$SCRATCH/try-%s'%name,'w').write('\n'.join(L))
e=[l for l in L if ': error:' in l]
print('==',name,'errors',len(e))
for l in e[:3]: print('  ',l[:700])
print([l for l in L if l.startswith('fn ') and ': proved' not in l][:3], L[-2:])
