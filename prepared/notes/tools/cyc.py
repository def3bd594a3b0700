import sys; sys.path.insert(0,'$SCRATCH/lang-tools')
from build import *
CY='walk/+feed_branches+feed_choice+feed_process'
M=['feed_branches','feed_choice','feed_process']
U='use Rattle·language·proofs.proofs.'
NL={'feed_branches':5,'feed_choice':4,'feed_process':4}
claims={
'feed_branches':['feed','feed-prefix','branch-next','*feed-process','*feed-branches'],
'feed_choice':['*feed-branches','feed'],
'feed_process':['feed','node-kind','field3','*feed-choice','feed-new','*feed-process','feed-call'],
}
def tup(m):
    out=[]
    for x in claims[m]:
        if x[0]=='*': out+= [x[1:]+'-below t',x[1:]+'.Post']
        else: out+=[x+'-reads.Asked',x+'-reads.Learnt']
    return '('+', '.join(out)+')'
K1=' .kept .1 .0'; K3=' .kept .1 .1 .1 .0'
W='(@args .table .now) (@args .names .now)'
bodies={
'feed_branches':{
 'returns':'rest-none '+W+' (@args .blanks .now) (@args .rest) _ _ (@if1 .taken) (@feed .ensures)',
 'feed-process-requires':'(omega (arith, @pre .0), @pre .1 .2)',
 'returns-2':'rest-one '+W+' (@args .blanks .now) (@args .rest) _ _ _ _ (@branch-next .ensures .0) (@feed-prefix .ensures) (@feed-process .ensures) (@if2 .taken)',
 'add-t24':'omega (arith, @pre .1 .1)',
 'sub-t33':'omega (arith, @if1 .left)',
 'feed-branches-requires':'(omega (arith, @pre .0, @if1 .left), (omega (arith, @pre .1 .0), omega (arith, @pre .1 .1, @if1 .left), @pre .1 .2))',
 'same-length-3':'@feed-branches'+K3+' ∙ @feed2'+K1+' ∙ @feed-process'+K3+' ∙ @feed-prefix'+K3,
 'returns-3':'\n    rest-more '+W+' (@args .blanks .now) (@args .rest) _ _ _ _ (@branch-next .ensures .0) (@feed-prefix .ensures) (@feed-process .ensures) _ _\n    (omega (arith, @if1 .left, @if2 .left)) (@feed2 .ensures) (@feed-branches .ensures)',
},
'feed_choice':{
 'feed-branches-requires':'(omega (arith, @pre .0, @pre .1 .0), (@pre .1 .0, omega (arith, @pre .1 .1, @pre .1 .0), @pre .1 .2))',
 'feed-branches-requires-2':'(omega (arith, @pre .0, @pre .1 .0), (@pre .1 .0, omega (arith, @pre .1 .1, @pre .1 .0), @pre .1 .2))',
 'feed-branches-requires-3':'(omega (arith, @pre .0, @pre .1 .0), (@pre .1 .0, omega (arith, @pre .1 .1, @pre .1 .0), @pre .1 .2))',
 'returns':'choice-plain '+W+' (@args .rest) _ (@args .after) _ (not-true _ (@if1 .taken)) (@feed-branches .ensures)',
 'returns-2':'choice-few '+W+' (@args .rest) _ (@args .after) _ (not-false _ (@if1 .left)) (@if2 .taken) (@feed-branches2 .ensures)',
 'same-length-3':'@feed2'+K1+' ∙ @feed-branches3'+K3+' ∙ @feed'+K1,
 'returns-3':'choice-many '+W+' (@args .rest) _ (@args .after) _ _ _ (not-false _ (@if1 .left)) (@if2 .left) (@feed .ensures) (@feed-branches3 .ensures) (@feed2 .ensures)',
},
'feed_process':{
 'returns':'process-deep '+W+' (@args .place) _ _ (@if1 .taken) (@feed .ensures)',
 'sub-depth':'omega (arith, @if1 .left)',
 'feed-choice-requires':'(omega (arith, @pre .0, @if1 .left), (@field32 .ensures .small, @field3 .ensures .small, omega (arith, @pre .1)))',
 'returns-2':'\n    process-choice '+W+' (@args .place) _ (omega (arith, @if1 .left)) _ _ _ (sym (@node-kind .ensures) ∙ @if2 .taken) (@field3 .ensures .is) (@field32 .ensures .is) (@feed-choice .ensures)',
 'feed-new-requires':'@field3 .ensures .small',
 'feed-process-requires':'(omega (arith, @pre .0, @if1 .left), omega (arith, @pre .1))',
 'returns-3':'\n    process-new '+W+' (@args .place) _ (omega (arith, @if1 .left)) _ _ _ _ (sym (@node-kind .ensures) ∙ @if3 .taken) (@field3 .ensures .is) (@field32 .ensures .is) (@feed-new .ensures) (@feed-process .ensures)',
 'returns-4':'\n    process-call '+W+' (@args .place) _ (omega (arith, @if1 .left)) _ (sym (@node-kind .ensures) ∙ @if4 .taken) (@feed-call .ensures)',
 'returns-5':'\n    process-stop '+W+' (@args .place) _ (omega (arith, @if1 .left)) _ (λ e. @if2 .left (@node-kind .ensures ∙ e)) (λ e. @if3 .left (@node-kind .ensures ∙ e)) (λ e. @if4 .left (@node-kind .ensures ∙ e)) (@feed2 .ensures)',
}}
out='''-- `language::walk::feed_process`, `feed_choice` and `feed_branches` meet their contracts. Measure: nodes left to go down, then branches left.
use mathlib.Core.Path.{_≡_, sym, _∙_}
use Prim.Native.Nat.{ℕ, _<_, _+_, _*_}
use native.Mathlib.Omega.{arith}
use borrow.Author.Needs.{needs}
use borrow.Author.Tests.{not-true, not-false}
use borrow.Fn.Kinds.{In}
use borrow.Fn.PlainCycle.{Measures, is, falls, and}
use Rattle·language·proofs.proofs.Processes.{rest-none, rest-one, rest-more, choice-plain, choice-few, choice-many, process-deep, process-choice, process-new, process-call, process-stop}
'''
for m in M:
    h=m.replace('_','-')
    out+=f'{U}walk.{m}.Reads as {h}\n{U}walk.{m}.Kinds as {h}-kinds\n{U}{CY.replace("/",".")}.Lts-{m} as {h}-lts\n'
for x,pth in [('feed','Rattle·language·proofs.proofs.feeding.feed'),('feed-prefix','Rattle·language·proofs.proofs.walk.feed_prefix'),('branch-next','Rattle·language·proofs.proofs.walk.branch_next'),('node-kind','Rattle·language·proofs.proofs.walk.node_kind'),('field3','Rattle·scheme.proofs.fields.field3'),('feed-new','Rattle·language·proofs.proofs.walk.feed_new'),('feed-call','Rattle·language·proofs.proofs.walk.feed_call')]:
    out+=f'use {pth}.Reads as {x}-reads\n'
out+=f'{U}{CY.replace("/",".")}.{{statement}}\n{U}{CY.replace("/",".")}.Tie.{{close}}\n\n'
mu={'feed_branches':'a .1 .1 .1 .1 .1 .1 .0 .depth * 131072 + 2 + a .1 .1 .1 .1 .1 .1 .0 .count','feed_choice':'a .1 .1 .1 .1 .1 .0 .depth * 131072 + 65540','feed_process':'a .1 .1 .1 .1 .1 .0 .depth * 131072'}
for m in M:
    h=m.replace('_','-'); n=NL[m]
    out+=f'abbrev μ-{h} : Measures {n} {h}-kinds.ps ℕ\nμ-{h} κs a = {mu[m]}\n\n'
for m in M:
    h=m.replace('_','-'); n=NL[m]
    out+=f'abbrev {h}-at : ℕ → In {n} {h}-kinds.ps\n{h}-at t = and {n} {h}-kinds.ps (is {n} {h}-kinds.ps μ-{h} t) {h}.Pre\n\n'
    out+=f'abbrev {h}-below : ℕ → In {n} {h}-kinds.ps\n{h}-below t = and {n} {h}-kinds.ps (falls {n} {h}-kinds.ps _<_ μ-{h} t) {h}.Pre\n\n'
specs=[]
for m in M:
    h=m.replace('_','-')
    order,chains=parse(G+CY+'/Lts-'+m+'.antt')
    out+=f'abbrev {h}-calls : ℕ → {h}-lts.Claims\n{h}-calls t = {tup(m)}\n\n'
    for n in order:
        k=' κs' if re.search(r'requires(-\d+)?$',n) else ''
        b=expand(bodies[m][n],chains[n]) if n in bodies[m] else 'search needs'
        out+=f'{h}-{n} : (t : ℕ) → {h}-lts.Need-{n} ({h}-calls t) ({h}-at t) {h}.Post\n{h}-{n} t c{k} ='+('' if b.startswith('\n') else ' ')+b+'\n\n'
    specs.append(f'(λ t. {h}-lts.spec ({h}-calls t) ({h}-at t) {h}.Post\n    '+'\n    '.join(f'({h}-{n} t)' for n in order)+')')
name='+'+'+'.join(m.replace('_','-') for m in M)+'-spec'
out+=f'pub {name} : {{M : Type 1}} → statement M\n{name} =\n    close\n    '+'\n    '.join('μ-'+m.replace('_','-') for m in M)+'\n    '+'\n    '.join(specs)+'\n'
os.makedirs(C+CY,exist_ok=True)
open(C+CY+'/Proof.antt','w').write(out)
