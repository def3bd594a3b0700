from mk import mk
OK='accepted-here _ _ (sym (@is-accepted .ensures) ∙ not-false _ (@if1 .left)) (@check .ensures)'
R='sym (@are-right .ensures) ∙ not-false _ (@if2 .left)'
L='listed (@args .table .now) (@args .names .now) _ (@name-count .ensures .0) (%s)'%R
mk('sentences','say','''-- `sentences::say` meets its contract: the table, the names, then the labels.
-- `cN` is the place N steps before `c`.''','''use mathlib.Core.Path.{sym, _∙_}
use native.Mathlib.Omega.{arith}
use borrow.Author.Tests.{not-true, not-false}
use Rattle·table.proofs.Lookup.{accepted-here, known-here}
use Rattle·sentences·proofs.proofs.Fronts.{placed}
use Rattle·sentences·proofs.proofs.Answers.{few-names, ready-here, listed, say-refused, say-wrong, say-said}''',{
'returns':'say-refused _ _ _ _ _ (sym (@is-accepted .ensures) ∙ not-true _ (@if1 .taken)) (@check .ensures)',
'returns-2':'say-wrong _ _ _ _ (%s)\n(sym (@are-right .ensures) ∙ not-true _ (@if2 .taken))'%OK,
'fill-places-requires':'(%s, @name-count .ensures .1)'%L,
'say-steps-requires':'''let ok = %s in
ready-here (@args .table .now) _ (@args .names .now) _ _ (@name-count .ensures .0)
(known-here _ _ (sym (@is-accepted .ensures) ∙ not-false _ (@if1 .left)) (@check .ensures) _ _ _ (@fill .ensures) (omega arith))
(placed (@args .names .now) _ _ (%s)
(few-names (@args .table .now) _ ok (@name-count .ensures .0)) (@fill-places .ensures))'''%(OK,L),
'returns-3':'''say-said _ _ _ _ (%s) _
(%s) (@say-steps .ensures)'''%(OK,R),
})
