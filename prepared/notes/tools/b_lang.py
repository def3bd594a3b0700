from mk import mk
import sys
P='use mathlib.Core.Path.{_≡_, refl, sym, ap, _∙_}\n'
O='use native.Mathlib.Omega.{arith}\n'
T='use borrow.Author.Tests.{not-true, not-false}\n'
A='use Rattle·language·proofs.proofs.Answers.{%s}\n'
mk('language','naming/is_digit','-- `language::naming::is_digit` meets its contract.',A%'digit-none, digit-some',{
'returns':'digit-none _ (@if1 .taken)','returns-2':'digit-some _ (@if1 .left)'})
W=['public','thread','starts','define','new','tau']
def kw(n):
    # n-th return (1..6)
    eqs=[];vals=[]
    for i in range(1,7):
        f='are-same' if i==1 else 'are-same%d'%i
        if i<n: vals.append('false'); eqs.append('(sym (@%s .ensures) ∙ @if%d .left)'%(f,i))
        elif i==n and n<6: vals.append('true'); eqs.append('(sym (@%s .ensures) ∙ @if%d .taken)'%(f,i))
        else: vals.append('_'); eqs.append('refl')
    b='keyword-told (@args .word .now) '+' '.join(vals)+'\n'+'\n'.join(' '.join(eqs[k:k+3]) for k in (0,3))
    if n==6: b='@are-same6 .ensures ∙ '+b
    return b
mk('language','naming/is_keyword','-- `language::naming::is_keyword` meets its contract.\n-- `cN` is the place N steps before `c`.',
 'use mathlib.Core.Path.{refl, sym, _∙_}\nuse mathlib.Core.Bool.{true, false}\n'+A%'keyword-told',
 {('returns' if n==1 else 'returns-%d'%n):kw(n) for n in range(1,7)})
mk('language','naming/is_writable','-- `language::naming::is_writable` meets its contract.\n-- `cN` is the place N steps before `c`.',
 'use mathlib.Core.Path.{sym, ap, _∙_}\nuse mathlib.Core.Bool.{Bool, true, false}\nuse Prim.Native.Nat.{ℕ}\nuse Rattle·sentences.specs.Names.{between}\n'+A%'digit-first, letter-first',{
'returns':'digit-first (@args .name .now) (ap (λ (b : ℕ). between 48 57 b) (sym (@word8 .ensures .is)) ∙ sym (@is-digit .ensures) ∙ @if1 .taken)',
'returns-2':'letter-first (@args .name .now) _ (ap (λ (b : ℕ). between 48 57 b) (sym (@word8 .ensures .is)) ∙ sym (@is-digit .ensures) ∙ @if1 .left)\n(@is-keyword .ensures)'})
mk('language','naming/all_writable','-- `language::naming::all_writable` meets its contract. Loop: the names left decide. Measure: names left.\n-- `cN` is the place N steps before `c`.',
 P+'use Prim.Native.Nat.{_≤_}\n'+O+'use lib.ListN.{length, drop}\n'+T+'''use Rattle·lists.specs.Lists.{every}
use Rattle·sentences.specs.Names.{namesIn}
use Rattle·sentences.proofs.Fronts.{end-inside, next-fits}
use Rattle·language·specs.specs.Words.{isWritable}
'''+A%'writable-not, writable-more, writable-done',{
'loop-holds':'(refl, omega arith)',
'sub-is-writable':'omega (arith, @name-end .ensures)',
'part-is-writable-start':'omega (arith, @name-end .ensures)',
'part-is-writable-end':'omega (arith, end-inside (@args .names .now) _ _ (@loop .inv .1) (@name-end .ensures) .1)',
'returns':'sym (@loop .inv .0 ∙ writable-not (@args .names .now) (@loop .place) (@loop .left) (@loop-test .taken) _ (@name-end .ensures)\n(sym (@is-writable .ensures) ∙ not-true _ (@if1 .taken)))',
'sub-left':'omega (arith, @loop-test .taken)',
'loop-less':'omega (arith, @loop-test .taken)',
'loop-again':'(@loop .inv .0 ∙ writable-more (@args .names .now) (@loop .place) (@loop .left) (@loop-test .taken) _ (@name-end .ensures) _\n(@next-name .ensures) (sym (@is-writable .ensures) ∙ not-false _ (@if1 .left)),\nomega (arith, @next-name .ensures, next-fits (@args .names .now) (@loop .place)))',
'returns-2':'sym (@loop .inv .0 ∙ writable-done (@loop .left) (drop (@loop .place) (@args .names .now)) (@loop-test .left))',
},inv='''abbrev Inv-loop : tie.InvT-loop
Inv-loop names count place₀ left₀ place left =
    (every isWritable (namesIn count names) ≡ every isWritable (namesIn left (drop place names))) × (place ≤ length names)

abbrev μ-loop : tie.MeasureT-loop
μ-loop names count place₀ left₀ place left = left''')
mk('language','put_scheme','-- `language::put_scheme` meets its contract.\n-- `cN` is the place N steps before `c`.',A%'scheme-written'+'use Rattle·language·specs.specs.SameTable.{schemeText}\n',{
'feed-scheme-requires':'@pre',
'returns':'scheme-written (schemeText (@args .table .now) (@args .names .now)) _ _ _ (@feed-scheme .ensures) (@put .ensures)'})
mk('language','write_scheme','-- `language::write_scheme` meets its contract: counted on a byte of its own, then written if there is room.\n-- `cN` is the place N steps before `c`.',
 O+'use Rattle·sentences.proofs.Answers.{too-long, all-written}\nuse Rattle·language·specs.specs.Grammar.{textOf}\nuse Rattle·language·specs.specs.SameTable.{schemeText}\n',{
'put-scheme-requires':'@pre','put-scheme-requires-2':'@pre',
'returns':'too-long (textOf (schemeText (@args .table .now) (@args .names .now))) (@args .text .now) _ _ (@put-scheme .ensures) (omega (arith, @if1 .taken))',
'returns-2':'all-written (textOf (schemeText (@args .table .now) (@args .names .now))) (@args .text .now) _ _ (@put-scheme .ensures) _\n(omega (arith, @if1 .left)) (@put-scheme2 .ensures)'})
M='(schemeText (@args .table .now) (@args .names .now)) (tokensIn (@args .text .now)) _ _ (@feed-scheme .ensures) refl'
mk('language','match_scheme','-- `language::match_scheme` meets its contract.\n-- `cN` is the place N steps before `c`.',
 'use mathlib.Core.Path.{refl, sym, _∙_}\n'+'use Rattle·language·specs.specs.Text.{tokensIn}\nuse Rattle·language·specs.specs.SameTable.{schemeText}\n'+A%'match-same, match-differs',{
'feed-scheme-requires':'@pre',
'returns':'match-same '+M+'\n(sym (@is-read .ensures) ∙ @if1 .taken)',
'returns-2':'match-differs '+M+' _\n(sym (@is-read .ensures) ∙ @if1 .left) (@equal-tokens .ensures)'})
mk('language','is_right','-- `language::is_right` meets its contract.\n-- `cN` is the place N steps before `c`.','use mathlib.Core.Path.{sym, ap, _∙_}\nuse Rattle·lists.specs.Lists.{same}\nuse Rattle·language·specs.specs.Outcomes.{causeNumber}\nuse Rattle·language·specs.specs.declared.Cause.{Cause}\n',{
'returns':'@is-accepted .ensures ∙ ap (λ (x : Cause). same (causeNumber x) 0) (sym (@cause .given .1))',
'returns-2':'rw (@enum-told .given .1)','returns-3':'rw (@enum-told2 .given .1)'},unf={'returns-2':'same','returns-3':'same'})
H='(@args .table .now) (@args .names .now) _ (@check-sparing .ensures)'
Y='(sym (@is-accepted .ensures) ∙ not-false _ (@if1 .left))'
R='(sym (@are-right .ensures) ∙ not-false _ (@if2 .left)) _ (@name-count .ensures .0)'
mk('language','check','-- `language::check` meets its contract.\n-- `cN` is the place N steps before `c`.','use mathlib.Core.Path.{sym, _∙_}\n'+T+A%'table-refused, names-refused, name-refused, nothing-refused',{
'returns':'table-refused '+H+'\n(sym (@is-accepted .ensures) ∙ not-true _ (@if1 .taken))',
'returns-2':'names-refused '+H+' '+Y+'\n(sym (@are-right .ensures) ∙ not-true _ (@if2 .taken))',
'returns-3':'name-refused '+H+' '+Y+'\n'+R+' (sym (@all-writable .ensures) ∙ not-true _ (@if3 .taken))',
'returns-4':'nothing-refused '+H+' '+Y+'\n'+R+' (sym (@all-writable .ensures) ∙ not-false _ (@if3 .left))'})
for f,x in (('write','write'),('matches','match')):
    n='(@args .table .now) (@args .names .now) (@args .text .now) _ (@check .ensures)'
    mk('language',f,'-- `language::%s` meets its contract.\n-- `cN` is the place N steps before `c`.'%f,'use mathlib.Core.Path.{sym, _∙_}\n'+T+A%('rooted, %s-refused, %s-done'%(x,x)),{
    'returns':x+'-refused '+n+' (sym (@is-right .ensures) ∙ not-true _ (@if1 .taken))',
    x+'-scheme-requires':'rooted (@args .table .now) (@args .names .now) _ (@check .ensures) (sym (@is-right .ensures) ∙ not-false _ (@if1 .left))',
    'returns-2':x+'-done '+n+' _\n(sym (@is-right .ensures) ∙ not-false _ (@if1 .left)) (@'+x+'-scheme .ensures)'})
