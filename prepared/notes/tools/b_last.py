from mk import mk
O='use native.Mathlib.Omega.{arith}\n'
A='use Rattle·language·proofs.proofs.Answers.{%s}\n'
for f,x in (('write','write'),('matches','match')):
    n='(@args .table .now) (@args .names .now) (@args .text .now) _ (@check .ensures)'
    ok='(omega (arith, @number .ensures .0, @if1 .left))'
    mk('language',f,'-- `language::%s` meets its contract.\n-- `cN` is the place N steps before `c`.'%f,O+A%('rooted, %s-refused, %s-done'%(x,x)),{
    'returns':x+'-refused '+n+'\n(omega (arith, @number .ensures .0, @if1 .taken))',
    x+'-scheme-requires':'rooted (@args .table .now) (@args .names .now) _ (@check .ensures)\n'+ok,
    'returns-2':x+'-done '+n+' _\n'+ok+' (@'+x+'-scheme .ensures)'})
