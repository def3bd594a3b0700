# benchtab.py FILE: rows of DECISIONS' Speed table from one run of bench
import re,sys
txt=open(sys.argv[1]).read()
secs=re.split(r'\n\n',txt[txt.index('\n\ntable E')+2:] if '\n\ntable E' in txt else txt)
T=[]
for s in secs:
    if 'per second' not in s: continue
    d={'title':s.split('\n')[0]}
    m=re.search(r'places (\d+), transitions (\d+), image words (\d+)',s); d['places'],d['transitions'],d['words']=map(int,m.groups())
    for l in s.split('\n'):
        m=re.match(r'(\D+?)\s{2,}(\d+)\s+(\d+)\s+([\d.]+)',l)
        if m: d.setdefault(m.group(1).strip(),[]).append((int(m.group(2)),int(m.group(3)),float(m.group(4))))
        m=re.match(r'plain write, (\w+)\s+(\d+)\s+the library builds at ([\d.]+)',l)
        if m: d['plain '+m.group(1)]=float(m.group(3))
    T.append(d)
def sig(x):
    if x>=9.95: return f'{x:,.0f}'
    if x>=0.995: return f'{x:.1f}'
    return f'{x:.2f}'
def row(name,key,unit,i=0):
    print('| '+name+' | '+' | '.join(f'{sig(d[key][i][0]/unit)} ({d[key][i][2]:.1f})' for d in T)+' |')
print('| image words | '+' | '.join(f"{d['words']:,}" for d in T)+' |')
row('words built','words built',1e6)
print('| of plain writing: one store a word, wide stores | '+' | '.join(f"{d['plain single']+1e-9:.2f}, {d['plain wide']+1e-9:.2f}" for d in T)+' |')
row('checks','checks',1e3)
row('firings replayed','firings replayed',1e6)
keys=[k for k in T[0] if k.startswith('firings run') or 'run' in k]
for k in keys: row(k,k,1e6)
for k in ('single firings','looks'): row(k,k,1e6)
for k in ('read-backs','starting states','lists of open steps','steps'): row(k,k,1e3)
print()
print('| transitions | '+' | '.join(f"{d['transitions']:,}" for d in T)+' |')
print('| lowest, by a summary, M | '+' | '.join(sig(d['lowest enabled'][0][0]/1e6) for d in T)+' |')
print('| times | '+' | '.join(sig(d['lowest enabled'][0][2]) for d in T)+' |')
print('| firings kept, k | '+' | '.join(sig(d['firings'][0][0]/1e3) for d in T)+' |')
print('| times | '+' | '.join(f"{d['firings'][0][2]:.2f}" for d in T)+' |')
